/*
 * sheets FOLDER SEED CASES: holds the sheet program to the reference of tests/host, file by file: each limit on it and
 * one past it, sheet flow in each place and of each length by each sheet rule, each refusal, each fault of a file at
 * each of its words, CASES random studies, half of them hostile, and two of the largest. Standard input has the words
 * that run the program, one to a line. Stops at the first difference.
 */
#include <stdio.h>
#include <stdlib.h>

#include "faults.h"
#include "found.h"
#include "hold.h"

#define COUNT(a) (sizeof(a) / sizeof *(a))

static u64 seed, made;

/* Every site has random numbers of its own. */
static struct prng fresh(struct site *s)
{
    *s = (struct site){ 0 };
    return prng_of(seed, ++made);
}

static struct prng fresh_plain(struct site *s, size_t count, size_t rows)
{
    struct prng r = fresh(s);
    plain_site(s, &r, count, rows);
    return r;
}

/* ---- Limits */

enum { PAVED_AT = 3, CHANNEL_AT = 4 };

static const u64 SHEET[] = { BT_SEGMENT_SHEET, 100, 240, 3600, 100 }, PAVED[] = { BT_SEGMENT_PAVED, 800, 200, 0, 0 },
                 CHANNEL[] = { BT_SEGMENT_CHANNEL, 2800, 50, 2000, 50 };

/* A path of each form that a segment can have. */
static void set_path(u64 *record)
{
    set_segment(segment_at(record, 0), SHEET);
    set_segment(segment_at(record, PAVED_AT), PAVED);
    set_segment(segment_at(record, CHANNEL_AT), CHANNEL);
}

enum field { STEP, FIRST, RULE, ENTRY, PATCHES, COVER, SOIL, AREA, SEGMENTS, FIRST_KIND, SHEET_LENGTH, SHEET_N,
             SHEET_RAIN, SHEET_SLOPE, LENGTH, RATE, KIND, CHANNEL_LENGTH, CHANNEL_N, CHANNEL_RADIUS, CHANNEL_SLOPE,
             STAGE, STORAGE, DISCHARGE };

static u64 *field_of(struct site *s, enum field field)
{
    u64 *record = record_at(s, 1), *row = pond_row_at(s, pond_rows(s) - 1);
    switch (field) {
    case STEP: return &s->step;
    case FIRST: return &s->first;
    case RULE: return &s->rule;
    case ENTRY: return &s->rain.at[s->rain.len - 1];
    case PATCHES: return record + BT_PATCH_COUNT;
    case COVER: return patch_at(record, 2);
    case SOIL: return patch_at(record, 2) + 1;
    case AREA: return patch_at(record, 2) + 2;
    case SEGMENTS: return record + BT_SEGMENT_COUNT;
    case FIRST_KIND: return segment_at(record, 0);
    case SHEET_LENGTH: return segment_at(record, 0) + BT_LENGTH_AT;
    case SHEET_N: return segment_at(record, 0) + BT_SHEET_N_AT;
    case SHEET_RAIN: return segment_at(record, 0) + BT_SHEET_RAIN_AT;
    case SHEET_SLOPE: return segment_at(record, 0) + BT_SHEET_SLOPE_AT;
    case LENGTH: return segment_at(record, PAVED_AT) + BT_LENGTH_AT;
    case RATE: return segment_at(record, PAVED_AT) + BT_SHALLOW_SLOPE_AT;
    case KIND: return segment_at(record, CHANNEL_AT);
    case CHANNEL_LENGTH: return segment_at(record, CHANNEL_AT) + BT_LENGTH_AT;
    case CHANNEL_N: return segment_at(record, CHANNEL_AT) + BT_CHANNEL_N_AT;
    case CHANNEL_RADIUS: return segment_at(record, CHANNEL_AT) + BT_CHANNEL_RADIUS_AT;
    case CHANNEL_SLOPE: return segment_at(record, CHANNEL_AT) + BT_CHANNEL_SLOPE_AT;
    case STAGE: return row;
    case STORAGE: return row + 1;
    default: return row + 2;
    }
}

static const struct {
    enum field field;
    u64 values[4]; /* one below the least, the least, the most, one above it, where it has them */
} LIMITS[] = {
    { STEP, { 58, 60, 3600, 3602 } },           { STEP, { 59, 120, 300, 3601 } },
    { FIRST, { 0, 1, BT_LAST_ROW_NUMBER - 11, BT_LAST_ROW_NUMBER - 10 } },
    { RULE, { 0, 1, 2, 3 } },
    { ENTRY, { 0, 5000, 30000, 30001 } },       { PATCHES, { 0, 1, 8, 9 } },
    { COVER, { 0, 1, 22, 23 } },                { SOIL, { 0, 1, 4, 5 } },
    { AREA, { 0, 1, 100000, 200001 } },         { SEGMENTS, { 0, 1, 6, 7 } },
    { FIRST_KIND, { 3, 4, 5, 6 } },             { SHEET_LENGTH, { 0, 1, 300, 301 } },
    { SHEET_N, { 0, 1, 999, 1000 } },           { SHEET_RAIN, { 0, 1, 30000, 30001 } },
    { SHEET_SLOPE, { 0, 1, 10000, 10001 } },    { LENGTH, { 0, 1, 4000, 4001 } },
    { RATE, { 0, 1, 10000, 10001 } },           { KIND, { 0, 1, 5, 6 } },
    { KIND, { 2, 3, 4, UINT64_MAX } },          { CHANNEL_LENGTH, { 0, 1, 4000, 4001 } },
    { CHANNEL_N, { 0, 1, 999, 1000 } },         { CHANNEL_RADIUS, { 0, 1, 10000, 10001 } },
    { CHANNEL_SLOPE, { 0, 1, 10000, 10001 } },  { STAGE, { 0, 1501, 1000000, 1000001 } },
    { STORAGE, { 0, 1000000000000 - 1, 1000000000000, 1000000000001 } },
    { DISCHARGE, { 0, 9999999, 10000000, 10000001 } },
    { FIRST, { UINT64_MAX, 0, 9000000000000000, UINT64_MAX - 11 } },
};

static void at_limit(struct site *s, enum field field, u64 value)
{
    struct prng r = fresh_plain(s, 3, 7);
    set_path(record_at(s, 1));
    *field_of(s, field) = value;
    hold_site("a limit", s, &r);
}

static void limits(struct site *s)
{
    for (size_t i = 0; i < COUNT(LIMITS); i++)
        for (size_t j = 0; j < COUNT(LIMITS[i].values); j++)
            at_limit(s, LIMITS[i].field, LIMITS[i].values[j]);
}

/* ---- Lengths: with one more than the limit it is the engine that refuses, with two more the reader. */

static void rows_and_entries(struct site *s, size_t rows, size_t entries)
{
    struct prng r = fresh_plain(s, 2, 7);
    set_rows(s, rows);
    for (size_t t = s->rain.len; t < entries; t++)
        s->rain.at[t] = s->rain.at[t - 1];
    s->rain.len = entries;
    hold_site("rows and rain", s, &r);
}

static void subareas(struct site *s, size_t count)
{
    struct prng r = fresh_plain(s, 16, 7);
    s->subareas.len = BT_WIDTH * count;
    hold_site("subareas", s, &r);
}

static void pond(struct site *s, size_t rows)
{
    struct prng r = fresh_plain(s, 2, rows < 2 ? 2 : rows > 64 ? 64 : rows);
    s->pond.len = BT_POND_WIDTH * rows;
    hold_site("pond rows", s, &r);
}

static void lengths(struct site *s)
{
    static const size_t rows[][2] = { { 0, 9 },       { 1, 2 },       { 1, 3 },       { 8, 9 },       { 12, 0 },
                                      { 12, 1 },      { 12, 2 },      { 12, 13 },     { 12, 14 },     { 1999, 2000 },
                                      { 2000, 2001 }, { 2000, 2002 }, { 2001, 2002 }, { 2002, 9 },    { 12, 2003 } };
    static const size_t counts[] = { 0, 1, 16, 17, 18 }, tables[] = { 0, 1, 2, 64, 65, 66 };
    for (size_t i = 0; i < COUNT(rows); i++)
        rows_and_entries(s, rows[i][0], rows[i][1]);
    for (size_t i = 0; i < COUNT(counts); i++)
        subareas(s, counts[i]);
    for (size_t i = 0; i < COUNT(tables); i++)
        pond(s, tables[i]);
}

/* ---- What numbers must be together: on the limit and, with 'past', one past it. */

static void total(struct site *s, u64 past)
{
    struct prng r = fresh_plain(s, 3, 7);
    patch_at(record_at(s, 2), 0)[2] += 200000 - total_area(s) + past;
    set_pond(s, 7, 900000000000, 1800, 100);
    hold_site("the total area", s, &r);
}

static void timed(struct site *s, u64 step, u64 seconds)
{
    struct prng r = fresh_plain(s, 3, 7);
    s->step = step;
    for (size_t i = 0; i < 3; i++)
        set_concentration(record_at(s, i), i == 1 ? seconds : 6000);
    hold_site("a time of concentration", s, &r);
}

static void stored(struct site *s, u64 past)
{
    struct prng r = fresh_plain(s, 3, 7);
    u64 *row = pond_row_at(s, 1);
    row[2] = 100;
    row[1] = s->step / 2 * row[2] - past;
    hold_site("half a step of discharge", s, &r);
}

/* The last rain entry above the one before, and the most rain, as soon as it may come. */
static void risen(struct site *s, u64 past)
{
    struct prng r = fresh_plain(s, 3, 7);
    set_rise(s, s->rain.len - 1, BT_MOST_RISE + past);
    set_pond(s, 7, 900000000000, 1800, 100);
    hold_site("a rise of the rain", s, &r);
}

static void poured(struct site *s, u64 past)
{
    struct prng r = fresh_plain(s, 3, 7);
    pour(s, 30000 + past);
    set_pond(s, 7, 900000000000, 1800, 100);
    hold_site("the most rain", s, &r);
}

/* A pond that releases nothing, and holds the study's water. */
static void full(struct site *s, u64 past)
{
    static struct columns rows;
    struct prng r = fresh_plain(s, 3, 2);
    u64 water = 0;
    study_rows(s, &rows);
    for (size_t k = 0; k < s->inflow; k++)
        water += rows.inflow[k];
    pond_row_at(s, 1)[1] = water - past;
    pond_row_at(s, 1)[2] = 0;
    hold_site("a full pond", s, &r);
}

static void together(struct site *s)
{
    for (u64 past = 0; past < 2; past++) {
        total(s, past);
        timed(s, 300, 36000 + past);
        timed(s, 3600 + 2 * past, 36000);
        timed(s, 600, concentration_of(600, 600) - past);
        timed(s, 120, concentration_of(120, 512 * 120 / 5 + 1) - 1 + past);
        stored(s, past);
        full(s, past);
        risen(s, past);
        poured(s, past);
    }
}

/* Sheet flow in one place of a path, the first or a later one. */
static void sheet_flow(struct site *s, size_t at)
{
    struct prng r = fresh_plain(s, 3, 7);
    set_segment(segment_at(record_at(s, 1), at), SHEET);
    hold_site("sheet flow", s, &r);
}

/* Sheet flow on each limit and one past it, by each sheet rule and by numbers that are none. */
static void sheet_rules(struct site *s)
{
    static const u64 rules[] = { 0, BT_RULE_TR55, BT_RULE_WINTR55, 3, (1ull << 32) + 1, UINT64_MAX },
                     lengths[] = { 100, 101, 300, 301 };
    for (size_t i = 0; i < COUNT(rules); i++)
        for (size_t j = 0; j < COUNT(lengths); j++) {
            struct prng r = fresh_plain(s, 3, 7);
            s->rule = rules[i];
            set_path(record_at(s, 1));
            *field_of(s, SHEET_LENGTH) = lengths[j];
            hold_site("a sheet rule", s, &r);
        }
}

/* A rule is asked also of a study without sheet flow. */
static void no_sheet(struct site *s, u64 rule)
{
    struct prng r = fresh_plain(s, 3, 7);
    s->rule = rule;
    for (size_t i = 0; i < 3; i++)
        set_concentration(record_at(s, i), 6000);
    hold_site("no sheet flow", s, &r);
}

static void refusals(struct site *s)
{
    for (size_t n = 0; n < STUDY_FAULTS; n++)
        for (int where = 0; where < 3; where++) {
            struct prng r = fresh_plain(s, 5, 7);
            FAULTS[n].make(s, where);
            hold_site("a refusal", s, &r);
        }
}

/* ---- Faults of a file, at each word of a small study */

static void spell(struct word *w, const char *text)
{
    snprintf(w->text, sizeof w->text, "%s", text);
}

static void no_number(struct file *f, struct prng *r, size_t i)
{
    static const char *const texts[] = { "x",   "-1", "1.5",   "12a",  "0x10",
                                         "1e3", "+4", "1,000", "\x80", "99999999999999999999x" };
    spell(&f->words[i], texts[below(r, COUNT(texts))]);
    write_words(f, r);
    hold_fault("no number", f, i, f->words[i].line, "this is no whole number; expected: ");
}

static void above(struct file *f, struct prng *r, size_t i)
{
    spell(&f->words[i], chance(r, 50) ? "18446744073709551616" : "99999999999999999999999");
    write_words(f, r);
    hold_fault("above", f, i, f->words[i].line, "this number is above 18,446,744,073,709,551,615; expected: ");
}

static void ended(struct file *f, struct prng *r, size_t i)
{
    size_t all = f->count;
    f->count = i;
    write_words(f, r);
    f->count = all;
    hold_fault("ended", f, i, f->end, "the file ends here; expected: ");
}

static void left_over(struct file *f, struct prng *r, const char *text)
{
    spell(&f->words[f->count++], text);
    write_words(f, r);
    f->count--;
    hold_fault("left over", f, f->count, f->words[f->count].line, "too many numbers; expected: ");
}

static void file_faults(struct site *s)
{
    static void (*const kinds[])(struct file *, struct prng *, size_t) = { no_number, above, ended };
    static struct file whole, f;
    struct prng r = fresh_plain(s, 2, 2);
    set_path(record_at(s, 1));
    words_of(s, &whole);
    for (size_t i = 0; i < whole.count; i++)
        for (size_t k = 0; k < COUNT(kinds); k++) {
            f = whole;
            kinds[k](&f, &r, i);
        }
    f = whole;
    left_over(&f, &r, "7");
    left_over(&f, &r, "x");
}

/* ---- Random studies */

static void random_site(const char *kind, struct site *s, void (*make)(struct site *, struct prng *))
{
    struct prng r = fresh(s);
    make(s, &r);
    hold_site(kind, s, &r);
}

int main(int argc, char **argv)
{
    static struct site s;
    if (argc != 4) {
        fprintf(stderr, "usage: sheets FOLDER SEED CASES\n");
        return 2;
    }
    hold_in(argv[1]);
    seed = strtoull(argv[2], NULL, 10);
    limits(&s);
    lengths(&s);
    together(&s);
    for (size_t i = 0; i < BT_MOST_SEGMENTS; i++)
        sheet_flow(&s, i);
    sheet_rules(&s);
    for (u64 rule = 0; rule < 4; rule++)
        no_sheet(&s, rule);
    refusals(&s);
    file_faults(&s);
    for (u64 i = 0; i < 2; i++)
        random_site("large", &s, large_site);
    for (u64 i = strtoull(argv[3], NULL, 10); i > 0; i--)
        if (i % 2 == 0)
            random_site("likely", &s, likely_site);
        else
            random_site("hostile", &s, hostile_site);
    return report() ? 0 : 1;
}
