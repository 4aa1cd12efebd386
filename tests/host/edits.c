#include "edits.h"

#include <string.h>

#include "faults.h"
#include "take.h"

#define COUNT(a) (sizeof(a) / sizeof *(a))

static const u64 MOST = UINT64_MAX, MOST_INFLOW = 217800000000u;

static void take_with(const char *kind, struct edit *e, u64 *at, u64 value)
{
    u64 was = *at;
    *at = value;
    take_edit(kind, e);
    *at = was;
}

/* ---- Edits to start from */

/* A plain site of 12 rows and 7 pond rows that stands; the new record is another plain site's. */
static void start_edit(struct edit *e, struct prng *r, size_t count, int where)
{
    static struct site other;
    *e = (struct edit){ 0 };
    other = (struct site){ 0 };
    plain_site(&e->site, r, count, 7);
    plain_site(&other, r, count, 7);
    e->place = place(where, count) + 1;
    memcpy(e->fresh, record_at(&other, 0), sizeof e->fresh);
    stand(e);
}

/* No rain before entry 'row', much from it on: it is the first row with any parts. */
static void dry_until(struct edit *e, size_t row)
{
    u64 wish = 3000 + 100 * row, first = wish < BT_MOST_RISE ? wish : BT_MOST_RISE;
    e->site.rain.len = e->site.inflow + 1;
    for (size_t t = 0; t < e->site.rain.len; t++)
        e->site.rain.at[t] = t < row ? 0 : first + 100 * (t - row);
    stand(e);
}

/* ---- Nothing changed */

static void same_records(struct edit *e, struct prng *r)
{
    static const size_t counts[] = { 1, 5, 16 };
    for (size_t i = 0; i < COUNT(counts); i++)
        for (int where = 0; where < 3; where++) {
            start_edit(e, r, counts[i], where);
            old_record(e)[BT_PATCH_COUNT] = 3;
            old_record(e)[BT_SEGMENT_COUNT] = 4;
            stand(e);
            keep_record(e);
            take_edit("the same record", e);
            e->fresh[BT_PATCHES + 3 * BT_PATCH_WIDTH] = MOST;
            e->fresh[BT_WIDTH - 1] = 0;
            take_edit("the same record but for what is not read", e);
            forge(e, r);
            take_edit("the same record, forged rows", e);
        }
}

static void set_patch(u64 *record, u64 cover, u64 area)
{
    record[BT_PATCH_COUNT] = 1;
    patch_at(record, 0)[0] = cover;
    patch_at(record, 0)[1] = 1;
    patch_at(record, 0)[2] = area;
}

/* Covers of low number on soil A, one of each class that has some, and too little rain for any: no row is changed, the
   class areas are. */
static void dry_records(struct edit *e, struct prng *r)
{
    static const u64 covers[] = { 3, 16, 19, 22 };
    for (size_t i = 0; i < COUNT(covers); i++)
        for (size_t j = 0; j < COUNT(covers); j++) {
            start_edit(e, r, 3, (int)j % 3);
            for (size_t t = 0; t < e->site.rain.len; t++)
                e->site.rain.at[t] = 200 * t;
            set_patch(old_record(e), covers[i], 500);
            set_patch(e->fresh, covers[j], 700);
            stand(e);
            take_edit("parts of 0 for parts of 0", e);
            forge(e, r);
            take_edit("parts of 0 for parts of 0, forged rows", e);
        }
}

/* ---- Places */

static void places(struct edit *e, struct prng *r)
{
    static const size_t counts[] = { 1, 2, 5, 16 };
    for (size_t i = 0; i < COUNT(counts); i++) {
        u64 count = counts[i];
        const u64 values[] = { 0,        1,         count,          count + 1, count + 2,
                               16,       17,        BT_WIDTH,       MOST,      MOST - 1,
                               MOST / 2, 1u << 31,  4294967296,     4294967297, 4294967296 + count,
                               MOST / 8 + 2, MOST / BT_WIDTH + 2, MOST / (8 * BT_WIDTH) + 2 };
        start_edit(e, r, count, 0);
        for (size_t j = 0; j < COUNT(values); j++)
            take_with("a place", e, &e->place, values[j]);
    }
}

/* ---- The new record, its own limits */

static void fresh_numbers(struct edit *e)
{
    for (size_t i = 0; i < BT_WIDTH; i++) {
        u64 was = e->fresh[i];
        const u64 values[] = { MOST, was + 4294967296u, 0, was + 1, was - 1, (u64)1 << 63 };
        for (size_t j = 0; j < COUNT(values); j++)
            take_with("a number of the new record spoilt", e, &e->fresh[i], values[j]);
    }
}

static void at_limits(const char *kind, struct edit *e, u64 *at, struct range ends)
{
    const u64 values[] = { ends.least - 1, ends.least, ends.most, ends.most + 1 };
    for (size_t i = 0; i < COUNT(values); i++)
        take_with(kind, e, at, values[i]);
}

/* A good segment of each kind, each of its numbers at the ends. */
static void fresh_segment_limits(struct edit *e, u64 *segment)
{
    u64 was[BT_SEGMENT_WIDTH];
    memcpy(was, segment, sizeof was);
    for (u64 kind = BT_SEGMENT_UNPAVED; kind <= BT_SEGMENT_CHANNEL; kind++)
        for (size_t i = 0; i < BT_SEGMENT_WIDTH; i++) {
            set_segment(segment, GOOD_SEGMENT[kind]);
            at_limits("a segment of the new record", e, segment + i, segment_range(e->site.rule, kind, i));
        }
    set_segment(segment, was);
}

static void fresh_limits(struct edit *e)
{
    static const struct range patch[] = { { 1, 22 }, { 1, 4 }, { 1, 200000 } };
    at_limits("patch count of the new record", e, &e->fresh[BT_PATCH_COUNT], (struct range){ 1, 8 });
    at_limits("segment count of the new record", e, &e->fresh[BT_SEGMENT_COUNT], (struct range){ 1, 6 });
    for (int where = 0; where < 3; where++) {
        for (size_t f = 0; f < 3; f++)
            at_limits("a patch of the new record", e, patch_at(e->fresh, place(where, 8)) + f, patch[f]);
        fresh_segment_limits(e, segment_at(e->fresh, place(where, 6)));
    }
}

static void fresh_limits_by_rules(struct edit *e)
{
    for (e->site.rule = BT_RULE_TR55; e->site.rule <= BT_RULE_WINTR55; e->site.rule++)
        fresh_limits(e);
}

static void fresh_records(struct edit *e, struct prng *r)
{
    for (int where = 0; where < 3; where++) {
        start_edit(e, r, 5, where);
        fresh_numbers(e);
        fresh_limits_by_rules(e);
    }
    start_edit(e, r, 1, 0);
    fresh_numbers(e);
    fresh_limits_by_rules(e);
}

/* ---- The new record, the study's limits */

/* The altered list's area beside 200,000, with the old record counted or not. */
static void fresh_areas(struct edit *e, struct prng *r)
{
    static const size_t counts[] = { 1, 2, 5, 16 };
    for (size_t i = 0; i < COUNT(counts); i++)
        for (int where = 0; where < 3; where++) {
            start_edit(e, r, counts[i], where);
            u64 all = total_area(&e->site), own = 0;
            for (size_t j = 0; j < BT_MOST_PATCHES; j++)
                own += patch_at(old_record(e), j)[2];
            set_patch(e->fresh, 3, 1);
            for (u64 more = 0; more < 5; more++) {
                take_with("area of the altered list", e, &patch_at(e->fresh, 0)[2], 200000 - (all - own) + more - 2);
                take_with("area with the old record", e, &patch_at(e->fresh, 0)[2], 200000 - all + more - 2);
            }
        }
}

static void try_time(const char *kind, struct edit *e, u64 seconds)
{
    set_concentration(e->fresh, seconds);
    take_edit(kind, e);
}

static void fresh_times_at(struct edit *e, u64 step)
{
    static const u64 seconds[] = { 1, 359, 360, 361, 35999, 36000, 36001, 36002, 37000 };
    u64 most = 512 * step / 5;
    e->site.step = step;
    for (size_t i = 0; i < subarea_count(&e->site); i++)
        set_concentration(record_at(&e->site, i), concentration_of(step, 3 * step));
    stand(e);
    for (size_t i = 0; i < COUNT(seconds); i++)
        try_time("Tc of the new record at its limits", e, seconds[i]);
    for (u64 peak = step - 2; peak <= step + 2; peak++)
        try_time("D beside the new record's Tp", e, concentration_of(step, peak));
    for (u64 peak = most - 1; peak <= most + 2 && peak <= reference_peak(step, 36000); peak++)
        try_time("the new record's 5 Tp beside 512 D", e, concentration_of(step, peak));
}

static void fresh_times(struct edit *e, struct prng *r)
{
    static const u64 steps[] = { 60, 62, 120, 210, 212, 300, 430, 432, 434, 436, 1800, 3598, 3600 };
    for (size_t i = 0; i < COUNT(steps); i++) {
        start_edit(e, r, 5, (int)i % 3);
        fresh_times_at(e, steps[i]);
    }
}

/* ---- Rows as found, at the limits of 16 and 17 */

static void inflow_at_limits(struct edit *e, size_t k)
{
    u64 parts[ROOM];
    const struct site *s = &e->site;
    reference_parts(s->step, s->rain.at, s->rain.len, old_record(e), parts, s->inflow);
    const u64 values[] = { parts[k],        parts[k] - 1, parts[k] + 1,    0,    MOST_INFLOW - 1, MOST_INFLOW,
                           MOST_INFLOW + 1, MOST,         (u64)1 << 63,    4294967296 };
    for (size_t i = 0; i < COUNT(values); i++)
        take_with("an inflow row at its limits", e, &e->found.inflow[k], values[i]);
}

static void outflow_at_limits(struct edit *e, size_t k)
{
    u64 discharge = last_pond_row(&e->site)[2], half = half_step(&e->site), was = e->found.storage[k];
    const u64 values[] = { 0, discharge, discharge + 1, MOST, MOST / half + 1, MOST / half, (u64)1 << 63 };
    for (int stored = 0; stored < 2; stored++) {
        for (size_t i = 0; i < COUNT(values); i++)
            take_with("an outflow row at its limits", e, &e->found.outflow[k], values[i]);
        e->found.storage[k] = half * discharge;
    }
    e->found.storage[k] = was;
}

/* With no outflow and with the greatest. The last values make storage and h times outflow wrap to 0 and 1. */
static void storage_at_limits(struct edit *e, size_t k)
{
    u64 discharge = last_pond_row(&e->site)[2], top = pond_top(&e->site), was = e->found.outflow[k];
    for (int open = 0; open < 2; open++) {
        u64 least = open ? half_step(&e->site) * discharge : 0;
        const u64 values[] = { least - 1, least,   least + 1,    top - least - 1, top - least, top - least + 1,
                               top,       top + 1, (u64)1 << 63, MOST,            0 - least,   1 - least };
        e->found.outflow[k] = open ? discharge : 0;
        for (size_t i = 0; i < COUNT(values); i++)
            take_with("a storage row at its limits", e, &e->found.storage[k], values[i]);
    }
    e->found.outflow[k] = was;
}

static void rows_at_limits(struct edit *e)
{
    for (int where = 0; where < 3; where++) {
        size_t k = place(where, e->site.inflow);
        inflow_at_limits(e, k);
        outflow_at_limits(e, k);
        storage_at_limits(e, k);
    }
}

/* Rows that stand, then forged ones; the first changed row is the first, one between, the last, or there is none. */
static void found_rows(struct edit *e, struct prng *r)
{
    static const size_t changed[] = { 1, 6, 12 };
    for (size_t i = 0; i <= COUNT(changed); i++)
        for (int forged = 0; forged < 2; forged++) {
            start_edit(e, r, 3, (int)i % 3);
            if (i < COUNT(changed))
                dry_until(e, changed[i]);
            else
                keep_record(e);
            if (forged)
                forge(e, r);
            rows_at_limits(e);
        }
}

/* A bad outflow before a bad inflow, row by row: 16 is looked for in every row before 17 in any. */
static void order_of_rows(struct edit *e, struct prng *r)
{
    start_edit(e, r, 3, 1);
    for (size_t one = 0; one < 12; one++)
        for (size_t two = 0; two < 12; two++) {
            u64 outflow = e->found.outflow[one];
            e->found.outflow[one] = MOST;
            take_with("a bad outflow and a bad inflow", e, &e->found.inflow[two], MOST_INFLOW + 1);
            e->found.outflow[one] = outflow;
        }
}

/* ---- The first changed row */

static void first_changed_rows(struct edit *e, struct prng *r)
{
    for (int i = 0; i < 8; i++)
        for (size_t row = 1; row <= 12; row++) {
            start_edit(e, r, 3, i % 3);
            dry_until(e, row);
            take_edit("rain from a row on", e);
            forge(e, r);
            take_edit("rain from a row on, forged rows", e);
            for (size_t k = row; k < 12; k++)
                e->found.outflow[k] = e->found.storage[k] = 0;
            take_edit("rain from a row on, and the rows after it empty", e);
        }
}

/* One row's state put in another place: the tail must start from the row before the first changed, and no other. */
static void states_before(struct edit *e, struct prng *r)
{
    for (size_t row = 2; row <= 12; row++)
        for (size_t k = 0; k < 12; k++) {
            start_edit(e, r, 2, (int)k % 2);
            dry_until(e, row);
            e->found.outflow[k] = last_pond_row(&e->site)[2] / 2;
            e->found.storage[k] = half_step(&e->site) * e->found.outflow[k] + last_pond_row(&e->site)[1] / 4 + k;
            take_edit("water in one row", e);
        }
}

/* Rows that stand already as the edit will leave them, up to a row, and as no routing would after it. All water is in
   by row 90, so that from there on neither record has a part: the tail is written to its end all the same. */
static void rows_that_meet(struct edit *e, struct prng *r)
{
    static struct edit after;
    for (size_t row = 0; row < 100; row++) {
        start_edit(e, r, 3, (int)row % 3);
        set_rows(&e->site, 100);
        stand(e);
        after = *e;
        altered_site(&after.site, e);
        if (stand(&after) != 0)
            continue;
        for (size_t k = 0; k < 100; k++) {
            e->found.outflow[k] = k < row ? after.found.outflow[k] : 0;
            e->found.storage[k] = k < row ? after.found.storage[k] : k;
        }
        take_edit("rows that stand as they will, up to one", e);
    }
}

/* ---- Refusal 14 in the tail: the pond is cut off at, and just below, the X of a row of the altered list's study */

static void flat_pond(struct edit *e, u64 discharge)
{
    u64 half = half_step(&e->site);
    const u64 rows[] = { 0, 0, 0, 100, half * discharge + 1, discharge, 200, 900000000000, discharge };
    e->site.pond.len = COUNT(rows);
    memcpy(e->site.pond.at, rows, sizeof rows);
}

static void cut_pond(struct edit *e, u64 discharge)
{
    static struct edit after;
    u64 half = half_step(&e->site);
    flat_pond(e, discharge);
    stand(e);
    after = *e;
    altered_site(&after.site, e);
    stand(&after);
    for (size_t k = 0; k < e->site.inflow; k++)
        for (u64 less = 0; less < 3; less++) {
            u64 cut = after.found.storage[k] + half * after.found.outflow[k] - half * discharge - less;
            if (cut > half * discharge + 1 && cut <= 1000000000000)
                take_with("the pond cut off at a row of the altered list", e, &e->site.pond.at[7], cut);
        }
}

static void full_tails(struct edit *e, struct prng *r)
{
    for (int i = 0; i < 12; i++) {
        start_edit(e, r, 3, i % 3);
        for (size_t j = 0; j < BT_MOST_PATCHES; j++)
            patch_at(e->fresh, j)[2] += 2 * patch_at(old_record(e), j)[2];
        cut_pond(e, 0);
        cut_pond(e, between(r, 1, 1000));
        dry_until(e, between(r, 2, 8));
        cut_pond(e, between(r, 1, 100000));
    }
}

/* ---- Rises of the rain: rows that stand on one at its limit, then lent with one past it */

static void rises(struct edit *e, struct prng *r)
{
    for (int at = 0; at < 3; at++)
        for (int where = 0; where < 3; where++) {
            start_edit(e, r, 3, where);
            size_t t = 1 + place(at, e->site.rain.len - 1);
            set_rise(&e->site, t, BT_MOST_RISE);
            stand(e);
            take_edit("a rise at its limit", e);
            set_rise(&e->site, t, BT_MOST_RISE + 1);
            take_edit("a rise past its limit", e);
        }
}

/* ---- Sheet flow, and segments' numbers: held to a new study, too */

static void take_from_study(const char *kind, struct edit *e)
{
    u64 figures[BT_ANSWER_LENGTH];
    memcpy(figures, take_study(kind, &e->site)->answer, sizeof figures);
    take_standing(kind, e, figures);
}

/* The same record but for its first segment, which is of this kind, and was of another. */
static void start_first(struct edit *e, struct prng *r, int where, u64 was, u64 is)
{
    start_edit(e, r, 3, where);
    set_segment(segment_at(old_record(e), 0), GOOD_SEGMENT[was]);
    stand(e);
    keep_record(e);
    set_segment(segment_at(e->fresh, 0), GOOD_SEGMENT[is]);
}

/* From each kind to each: sheet flow is brought, taken away, and kept. */
static void first_kinds(struct edit *e, struct prng *r)
{
    for (u64 was = BT_SEGMENT_UNPAVED; was <= BT_SEGMENT_CHANNEL; was++)
        for (u64 is = BT_SEGMENT_UNPAVED; is <= BT_SEGMENT_CHANNEL; is++)
            for (int where = 0; where < 3; where++) {
                start_first(e, r, where, was, is);
                take_from_study("the first segment's kind", e);
            }
}

/* One number of the first segment changed by a little or by much, also a spare one: then no row changes. */
static void segment_numbers_by(struct edit *e, struct prng *r, u64 rule)
{
    for (u64 kind = BT_SEGMENT_UNPAVED; kind <= BT_SEGMENT_CHANNEL; kind++)
        for (size_t i = BT_LENGTH_AT; i < BT_SEGMENT_WIDTH; i++) {
            start_first(e, r, (int)i % 3, kind, kind);
            e->site.rule = rule;
            u64 *at = &segment_at(e->fresh, 0)[i], good = *at, most = segment_range(rule, kind, i).most;
            const u64 values[] = { good - 1, good + 1, good / 2, good + good / 2, most };
            for (size_t j = 0; j < COUNT(values); j++) {
                *at = values[j];
                take_from_study("one number of a segment", e);
            }
        }
}

static void segment_numbers(struct edit *e, struct prng *r)
{
    segment_numbers_by(e, r, BT_RULE_TR55);
    segment_numbers_by(e, r, BT_RULE_WINTR55);
}

/* The old record, and a sheet segment put in before its segment i. */
static void put_in_sheet(struct edit *e, size_t i)
{
    u64 *at = segment_at(e->fresh, i);
    keep_record(e);
    memmove(at + BT_SEGMENT_WIDTH, at, (BT_MOST_SEGMENTS - 1 - i) * BT_SEGMENT_WIDTH * sizeof *at);
    set_segment(at, GOOD_SEGMENT[BT_SEGMENT_SHEET]);
    e->fresh[BT_SEGMENT_COUNT]++;
}

/* Before the first it passes, before any other 7 refuses it. */
static void sheet_places(struct edit *e, struct prng *r)
{
    for (int where = 0; where < 3; where++) {
        start_first(e, r, where, BT_SEGMENT_CHANNEL, BT_SEGMENT_CHANNEL);
        old_record(e)[BT_SEGMENT_COUNT] = BT_MOST_SEGMENTS - 1;
        stand(e);
        for (size_t i = 0; i < BT_MOST_SEGMENTS; i++) {
            put_in_sheet(e, i);
            take_from_study("a sheet segment put in", e);
            take_with("a sheet segment past the count", e, &e->fresh[BT_SEGMENT_COUNT], i);
        }
    }
}

/* The list as it stands has one that is not first: refused by 7 whatever the new record is. */
static void standing_sheets(struct edit *e, struct prng *r)
{
    for (int where = 0; where < 3; where++)
        for (size_t i = 0; i < 3; i++) {
            start_edit(e, r, 3, where);
            set_segment(segment_at(record_at(&e->site, i), 1), GOOD_SEGMENT[BT_SEGMENT_SHEET]);
            take_edit("a sheet segment second in the list", e);
        }
}

/* ---- The sheet rule */

/* Rows that stand by either, with sheet flow in every subarea and in the new record, or in none. */
static void rules(struct edit *e, struct prng *r)
{
    static const u64 first[] = { BT_SEGMENT_CHANNEL, BT_SEGMENT_SHEET };
    const u64 values[] = { 0, 1, 2, 3, 4, 100, 300, 4294967296, 4294967297, 4294967298, (u64)1 << 63, MOST - 1, MOST };
    for (size_t f = 0; f < COUNT(first); f++)
        for (int where = 0; where < 3; where++) {
            start_edit(e, r, 3, where);
            for (size_t i = 0; i < 3; i++)
                set_segment(segment_at(record_at(&e->site, i), 0), GOOD_SEGMENT[first[f]]);
            set_segment(segment_at(e->fresh, 0), GOOD_SEGMENT[first[f]]);
            stand(e);
            for (size_t i = 0; i < COUNT(values); i++)
                take_with("a sheet rule", e, &e->site.rule, values[i]);
        }
}

/* The new record's, on rows whose own sheets are short. */
static void fresh_sheets(struct edit *e, struct prng *r)
{
    static const u64 lengths[] = { 0, 1, 99, 100, 101, 102, 200, 299, 300, 301, 4000, 4294967396, UINT64_MAX };
    for (u64 rule = BT_RULE_TR55; rule <= BT_RULE_WINTR55; rule++)
        for (int where = 0; where < 3; where++) {
            start_edit(e, r, 5, where);
            e->site.rule = rule;
            for (size_t i = 0; i < COUNT(lengths); i++) {
                set_sheet(e->fresh, lengths[i]);
                take_from_study("a sheet's length", e);
            }
        }
}

/* One that stands in the list is refused at its own place, whichever place is edited, also where the new record would
   take it away. The rows are those that rule 1 left, where it lets them be. */
static void standing_lengths(struct edit *e, struct prng *r)
{
    static const u64 lengths[] = { 100, 101, 300, 301 };
    for (size_t i = 0; i < COUNT(lengths); i++)
        for (int where = 0; where < 3; where++)
            for (size_t at = 0; at < 3; at++) {
                start_edit(e, r, 3, where);
                set_sheet(record_at(&e->site, at), lengths[i]);
                e->site.rule = BT_RULE_TR55;
                stand(e);
                take_edit("a sheet's length in the list", e);
                take_with("a sheet's length in the list", e, &e->site.rule, BT_RULE_WINTR55);
                set_sheet(e->fresh, 301);
                take_edit("a sheet's length in the list, and another", e);
                take_with("a sheet's length in the list, and another", e, &e->site.rule, BT_RULE_WINTR55);
            }
}

/* Rows that one rule left, edited by the other. It is no breach: the edit answers by its own rule, as a new study by
   that one does; where both let the new record pass, no row is other than a new study's by the first. */
static void edit_by_other(struct edit *e, u64 length)
{
    u64 figures[BT_ANSWER_LENGTH], was = e->site.rule;
    memcpy(figures, take_study("rows of one rule", &e->site)->answer, sizeof figures);
    set_sheet(e->fresh, length);
    take_standing("edited by that rule", e, figures);
    e->site.rule = was == BT_RULE_TR55 ? BT_RULE_WINTR55 : BT_RULE_TR55;
    const struct result *due = take_standing("edited by the other rule", e, figures);
    if (due->gave == 0 && length <= 100)
        take_standing_by("edited by the other rule, held to the first", e, figures, was);
    e->site.rule = was;
}

static void other_rules(struct edit *e, struct prng *r)
{
    static const u64 lengths[] = { 50, 100, 101, 300, 301 };
    for (u64 was = BT_RULE_TR55; was <= BT_RULE_WINTR55; was++)
        for (int where = 0; where < 3; where++)
            for (size_t i = 0; i < COUNT(lengths); i++) {
                start_edit(e, r, 5, where);
                e->site.rule = was;
                edit_by_other(e, lengths[i]);
            }
}

/* ---- Two faults at once, in the order of an edit */

static void fault_place(struct edit *e, int where)
{
    e->place = where == 0 ? 0 : where == 1 ? 6 : MOST;
}

/* Refusals 6 to 11: what the study's fault does to a record, done to the new one. */
static void fault_fresh(struct edit *e, int number, int where)
{
    static struct site other;
    other = e->site;
    fault_of(&other, number, where);
    e->site.step = other.step;
    e->site.rule = other.rule;
    memcpy(e->fresh, record_at(&other, place(where, 5)), sizeof e->fresh);
}

static void fault_inflow(struct edit *e, int where)
{
    e->found.inflow[place(where, 12)] = where == 0 ? MOST : where == 1 ? 0 : MOST_INFLOW + 1;
}

static void fault_standing(struct edit *e, int where)
{
    if (where == 0)
        e->found.outflow[0] = 10000001;
    else
        e->found.storage[place(where, 12)] = where == 1 ? MOST : MOST - 18000000;
}

/* A pond that holds little, and rows with no water in them, which pass 17. */
static void fault_full(struct edit *e, int where)
{
    fault_of(&e->site, BT_REFUSED_FULL, where);
    memset(e->found.outflow, 0, sizeof e->found.outflow);
    memset(e->found.storage, 0, sizeof e->found.storage);
}

enum { FRESH = 100 }; /* 6 to 11 of the new record stand as 106 to 111 */

static const int ORDER[] = { 1,  2,   20,  3,   19,  4,   5,   15, 6,  7,  8,  9, 10,
                             11, 106, 107, 108, 109, 110, 111, 12, 13, 16, 17, 14 };

static void make_fault(struct edit *e, int number, int where)
{
    if (number > FRESH)
        fault_fresh(e, number - FRESH, where);
    else if (number == BT_REFUSED_FULL)
        fault_full(e, where);
    else if (number == BT_REFUSED_EDIT)
        fault_place(e, where);
    else if (number == BT_REFUSED_INFLOW)
        fault_inflow(e, where);
    else if (number == BT_REFUSED_STANDING)
        fault_standing(e, where);
    else
        fault_of(&e->site, number, where);
}

/* The later number's fault goes in first, since some faults make room for others. Each takes each place. */
static void two_faults(struct edit *e, struct prng *r)
{
    for (size_t one = 0; one < COUNT(ORDER); one++)
        for (size_t two = one; two < COUNT(ORDER); two++)
            for (int where = 0; where < 9; where++) {
                start_edit(e, r, 5, (int)(one + two) % 3);
                make_fault(e, ORDER[two], where / 3);
                make_fault(e, ORDER[one], where % 3);
                take_edit("two faults of an edit", e);
            }
}

static void every_fault_from_one_on(struct edit *e, struct prng *r)
{
    for (size_t one = 0; one < COUNT(ORDER); one++)
        for (int where = 0; where < 3; where++) {
            start_edit(e, r, 5, where);
            for (size_t other = COUNT(ORDER); other-- > one;)
                make_fault(e, ORDER[other], where);
            take_edit("every fault of an edit from one number on", e);
        }
}

void chosen_edits(u64 seed)
{
    static struct edit e;
    static void (*const all[])(struct edit *, struct prng *) = {
        same_records, dry_records,   places,             fresh_records, fresh_areas,    fresh_times,
        found_rows,   order_of_rows, first_changed_rows, states_before, rows_that_meet, full_tails,
        two_faults,   every_fault_from_one_on, rises, first_kinds, segment_numbers, sheet_places, standing_sheets,
        rules,        fresh_sheets,            standing_lengths, other_rules,
    };
    for (size_t i = 0; i < COUNT(all); i++) {
        struct prng r = prng_of(seed, 1000 + i);
        all[i](&e, &r);
    }
}

/* ---- Chains */

/* Asks the next edit of rows that stand. */
static void ask(struct edit *e, struct prng *r)
{
    u64 count = subarea_count(&e->site);
    e->place = chance(r, 97) ? between(r, 1, count) : chance(r, 50) ? 0 : count + between(r, 1, 3);
    if (chance(r, 85))
        random_fresh(e, r);
    else
        hostile_fresh(e, r);
}

/* A mark of the rows then standing: of the peak row, as the figures have it, or of any. */
static void mark_standing(const char *kind, const struct edit *e, const u64 *figures, struct prng *r)
{
    static struct mark m;
    m = (struct mark){ e->site, e->found, chance(r, 50) ? figures[BT_ROW] : between(r, 1, e->site.inflow) };
    take_mark(kind, &m);
}

static void take_chain(const char *kind, struct edit *e, struct prng *r, u64 edits)
{
    u64 figures[BT_ANSWER_LENGTH];
    memcpy(figures, take_study(kind, &e->site)->answer, sizeof figures);
    mark_standing(kind, e, figures, r);
    while (edits-- > 0) {
        ask(e, r);
        const struct result *due = take_standing(kind, e, figures);
        if (due->gave == 0) {
            altered_site(&e->site, e);
            e->found = due->rows;
            memcpy(figures, due->answer, sizeof figures);
        }
        mark_standing(kind, e, figures, r);
    }
}

u64 chain_cases(u64 edits)
{
    return 2 * (1 + edits);
}

static void accepted(struct edit *e, struct prng *r, void (*make)(struct site *, struct prng *))
{
    do {
        *e = (struct edit){ 0 };
        make(&e->site, r);
    } while (stand(e) != 0);
}

void chain_of_edits(struct prng *r, u64 edits)
{
    static struct edit e;
    accepted(&e, r, likely_site);
    take_chain("a chain of edits", &e, r, edits);
}

void large_chain(struct prng *r)
{
    static struct edit e;
    accepted(&e, r, large_site);
    take_chain("large, and an edit of it", &e, r, LARGE_EDITS);
}
