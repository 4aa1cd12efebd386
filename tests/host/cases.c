#include "cases.h"

#include <string.h>

#include "faults.h"
#include "figures.h"
#include "take.h"

#define COUNT(a) (sizeof(a) / sizeof *(a))

static const u64 MOST = UINT64_MAX;

static void take_with(const char *kind, struct site *s, u64 *at, u64 value)
{
    u64 was = *at;
    *at = value;
    take_site(kind, s);
    *at = was;
}

/* ---- Sites to start from */

/* One patch, one segment, 8 rows, one rain step of the greatest rise. D 212 lets every Tc from 360 to 36,000 pass; all
   water is in by row 6 where Tc is 360. */
static void lone_site(struct site *s)
{
    *s = (struct site){ .step = 212, .first = 1, .rule = BT_RULE_TR55 };
    set_rows(s, 8);
    pour(s, BT_MOST_RISE);
    s->subareas.len = BT_WIDTH;
    u64 *record = record_at(s, 0);
    record[BT_PATCH_COUNT] = 1;
    patch_at(record, 0)[0] = patch_at(record, 0)[1] = 4;
    patch_at(record, 0)[2] = 100000;
    set_concentration(record, 360);
    set_pond(s, 9, 900000000000, 106, 40);
}

static void set_all_concentrations(struct site *s, u64 seconds)
{
    for (size_t i = 0; i < subarea_count(s); i++)
        set_concentration(record_at(s, i), seconds);
}

/* ---- Every number of every list in turn */

static void spoil_number_in_turn(const char *kind, struct site *s, u64 *at)
{
    u64 was = *at;
    const u64 values[] = { MOST, was + 4294967296u, 0, was + 1, was - 1, (u64)1 << 63, MOST - 1 };
    for (size_t i = 0; i < COUNT(values); i++)
        take_with(kind, s, at, values[i]);
}

static void spoil_list_in_turn(const char *kind, struct site *s, struct list *l)
{
    for (size_t i = 0; i < l->len; i++)
        spoil_number_in_turn(kind, s, &l->at[i]);
}

static void every_number(struct site *s)
{
    spoil_number_in_turn("the step spoilt", s, &s->step);
    spoil_number_in_turn("the first row number spoilt", s, &s->first);
    spoil_number_in_turn("the sheet rule spoilt", s, &s->rule);
    spoil_list_in_turn("a rain entry spoilt", s, &s->rain);
    spoil_list_in_turn("a number of a subarea spoilt", s, &s->subareas);
    spoil_list_in_turn("a number of the pond spoilt", s, &s->pond);
}

static void every_number_of_three_sites(struct site *s, struct prng *r)
{
    plain_site(s, r, 5, 7);
    every_number(s);
    *s = (struct site){ 0 };
    plain_site(s, r, BT_MOST_SUBAREAS, BT_MOST_POND_ROWS);
    every_number(s);
    lone_site(s);
    every_number(s);
}

/* ---- Limits of records */

struct field {
    const char *kind;
    size_t at;
    u64 least, most;
};

static void at_limits(const struct field *f, struct site *s, u64 *at)
{
    take_with(f->kind, s, at, f->least - 1);
    take_with(f->kind, s, at, f->least);
    take_with(f->kind, s, at, f->most);
    take_with(f->kind, s, at, f->most + 1);
}

static const struct field COUNTS[] = {
    { "patch count at its limits", BT_PATCH_COUNT, 1, 8 },
    { "segment count at its limits", BT_SEGMENT_COUNT, 1, 6 },
};

static const struct field PATCH[] = {
    { "cover code at its limits", 0, 1, 22 },
    { "soil group at its limits", 1, 1, 4 },
    { "area at its limits", 2, 1, 200000 },
};

static const char *const SEGMENT[] = {
    "segment kind at its limits", "length at its limits", "slope, velocity or n at its limits",
    "rain, radius or a spare number at its limits", "slope or a spare number at its limits",
};

/* A good segment of each kind, each of its numbers at the ends; a spare one at the ends of all numbers. */
static void segment_limits(struct site *s, u64 *segment)
{
    u64 was[BT_SEGMENT_WIDTH];
    memcpy(was, segment, sizeof was);
    for (u64 kind = BT_SEGMENT_UNPAVED; kind <= BT_SEGMENT_CHANNEL; kind++)
        for (size_t i = 0; i < BT_SEGMENT_WIDTH; i++) {
            struct range ends = segment_range(s->rule, kind, i);
            struct field f = { SEGMENT[i], i, ends.least, ends.most };
            set_segment(segment, GOOD_SEGMENT[kind]);
            at_limits(&f, s, segment + i);
        }
    set_segment(segment, was);
}

static void member_limits(struct site *s, u64 *record)
{
    u64 patches = record[BT_PATCH_COUNT], segments = record[BT_SEGMENT_COUNT];
    for (int member = 0; member < 3; member++) {
        for (size_t f = 0; f < COUNT(PATCH); f++)
            at_limits(&PATCH[f], s, patch_at(record, place(member, patches)) + PATCH[f].at);
        segment_limits(s, segment_at(record, place(member, segments)));
    }
}

static void record_limits(struct site *s)
{
    for (int where = 0; where < 3; where++) {
        u64 *record = record_at(s, place(where, subarea_count(s)));
        for (size_t f = 0; f < COUNT(COUNTS); f++)
            at_limits(&COUNTS[f], s, record + COUNTS[f].at);
        member_limits(s, record);
    }
}

static void record_limits_by_rules(struct site *s)
{
    for (s->rule = BT_RULE_TR55; s->rule <= BT_RULE_WINTR55; s->rule++)
        record_limits(s);
}

static void record_limits_of_two_sites(struct site *s, struct prng *r)
{
    plain_site(s, r, 5, 7);
    record_limits_by_rules(s);
    lone_site(s);
    record_limits_by_rules(s);
}

/* Kinds 1 to 3 with lengths and rates at the ends. */
static void segment_corners(struct site *s)
{
    static const u64 lengths[] = { 1, 2, 360, 3999, 4000 }, rates[] = { 1, 2, 100, 9999, 10000 };
    lone_site(s);
    u64 *segment = segment_at(record_at(s, 0), 0);
    for (segment[0] = 1; segment[0] <= 3; segment[0]++)
        for (size_t i = 0; i < COUNT(lengths); i++)
            for (size_t j = 0; j < COUNT(rates); j++) {
                segment[1] = lengths[i];
                take_with("a segment's length and rate at the ends", s, &segment[2], rates[j]);
            }
}

/* ---- Segments' times, to the second */

/* The lone site's first segment with others that make Tc 36,000, and one second more, which 9 refuses. */
static void take_time(const char *kind, struct site *s)
{
    u64 *record = record_at(s, 0);
    record[BT_SEGMENT_COUNT] = 1;
    if (reference_list_refusal(s->step, s->rule, record, BT_WIDTH).number != 0) {
        take_study(kind, s);
        return;
    }
    u64 rest = 36000 - reference_segment(segment_at(record, 0));
    for (u64 more = 0; more < 2; more++) {
        record[BT_SEGMENT_COUNT] = 1;
        add_time(record, rest + more);
        take_study(kind, s);
    }
}

/* Each number of a sheet or channel segment at an end of its range, or beside one. */
static void manning_corners(struct site *s)
{
    lone_site(s);
    u64 *segment = segment_at(record_at(s, 0), 0);
    for (u64 kind = BT_SEGMENT_SHEET; kind <= BT_SEGMENT_CHANNEL; kind++)
        for (unsigned which = 0; which < 256; which++) { /* two bits for each number */
            segment[BT_KIND_AT] = kind;
            for (size_t i = 0; i < 4; i++) {
                u64 most = segment_range(s->rule, kind, BT_LENGTH_AT + i).most;
                const u64 values[] = { 1, 2, most - 1, most };
                segment[BT_LENGTH_AT + i] = values[which >> 2 * i & 3];
            }
            take_time("a sheet or channel segment at the ends", s);
        }
}

/* Exact times, and what lies beside them: each number one less, one more. */
static void exact_times(struct site *s)
{
    lone_site(s);
    u64 *segment = segment_at(record_at(s, 0), 0);
    for (size_t i = 0; i < EXACT_TIMES; i++)
        for (size_t j = BT_LENGTH_AT; j < BT_SEGMENT_WIDTH; j++)
            for (u64 more = 0; more < 3; more++) {
                set_segment(segment, EXACT[i].segment);
                segment[j] += more - 1;
                take_time("a time that is exact, or nearly", s);
            }
}

/* P2 = 10 j^2, s = q v^2 and nL = 10 q^3 v: T is 252 q^2 / j. */
static void exact_sheet(u64 *segment, struct prng *r)
{
    static const u64 divisors[] = { 1, 2, 3, 4, 6, 7, 9, 12, 14, 18, 21, 28, 36, 42 }; /* of 252 */
    u64 q = between(r, 1, 30), j = divisors[below(r, COUNT(divisors))], most = 999 / (q * q);
    u64 v = between(r, 1, most < 31 ? most : 31);
    set_segment(segment, (const u64[]){ BT_SEGMENT_SHEET, 10 * q, q * q * v, 10 * j * j, q * v * v });
}

/* n = 149 k, r = 100 a^3, s = 100 b^2 and L = a^2 b t: T is k t. */
static void exact_channel(u64 *segment, struct prng *r)
{
    u64 k = between(r, 1, 6), a = between(r, 1, 4), b = between(r, 1, 10), t = between(r, 1, 4000 / (a * a * b));
    set_segment(segment, (const u64[]){ BT_SEGMENT_CHANNEL, a * a * b * t, 149 * k, 100 * a * a * a, 100 * b * b });
}

static void times_at_random(struct site *s, struct prng *r)
{
    lone_site(s);
    u64 *segment = segment_at(record_at(s, 0), 0);
    for (u64 i = 0; i < 3000; i++) {
        random_segment(s->rule, segment, BT_SEGMENT_UNPAVED + i % BT_SEGMENT_CHANNEL, r);
        take_time("a segment's time", s);
        (i % 2 == 0 ? exact_sheet : exact_channel)(segment, r);
        take_time("an exact time", s);
    }
}

/* One to six segments of the greatest time, channels, the first of them a channel or sheet flow. */
static void greatest_times(struct site *s)
{
    static const u64 sheet[] = { BT_SEGMENT_SHEET, 300, 999, 1, 1 };
    static const u64 channel[] = { BT_SEGMENT_CHANNEL, 4000, 999, 1, 1 };
    lone_site(s);
    u64 *record = record_at(s, 0);
    for (size_t i = 0; i < BT_MOST_SEGMENTS; i++) {
        record[BT_SEGMENT_COUNT] = i + 1;
        set_segment(segment_at(record, i), channel);
        take_site("channels of the greatest time", s);
        set_segment(segment_at(record, 0), sheet);
        take_site("sheet flow and channels of the greatest time", s);
        set_segment(segment_at(record, 0), channel);
    }
}

/* ---- Kinds of segments */

/* Numbers that are good for every kind. */
static void kinds(struct site *s, struct prng *r)
{
    static const u64 numbers[] = { BT_SEGMENT_UNPAVED, 100, 240, 3600, 100 };
    static const u64 values[] = { 0, 1, 2, 3, 4, 5, 6, 7, 4294967300, 4294967301, 9223372036854775812u, UINT64_MAX };
    plain_site(s, r, 5, 7);
    for (int where = 0; where < 3; where++)
        for (size_t i = 0; i < BT_MOST_SEGMENTS; i++) {
            u64 *segment = segment_at(record_at(s, place(where, 5)), i), was[BT_SEGMENT_WIDTH];
            memcpy(was, segment, sizeof was);
            set_segment(segment, numbers);
            for (size_t j = 0; j < COUNT(values); j++)
                take_with("a kind of segment", s, &segment[BT_KIND_AT], values[j]);
            set_segment(segment, was);
        }
}

/* A sheet segment in a place, the last that is read or not; then it stands just past the count. */
static void take_sheet_at(struct site *s, u64 *record, size_t i)
{
    u64 *segment = segment_at(record, i), was[BT_SEGMENT_WIDTH];
    memcpy(was, segment, sizeof was);
    set_segment(segment, GOOD_SEGMENT[BT_SEGMENT_SHEET]);
    take_site("a sheet segment in a place", s);
    take_with("a sheet segment in the last place", s, &record[BT_SEGMENT_COUNT], i + 1);
    take_with("a sheet segment past the count", s, &record[BT_SEGMENT_COUNT], i);
    set_segment(segment, was);
}

/* Each place, where the first segment is sheet flow and where it is not. */
static void sheet_places(struct site *s, struct prng *r)
{
    static const u64 first[] = { BT_SEGMENT_CHANNEL, BT_SEGMENT_SHEET };
    plain_site(s, r, 5, 7);
    for (int where = 0; where < 3; where++) {
        u64 *record = record_at(s, place(where, 5));
        for (size_t f = 0; f < COUNT(first); f++) {
            set_segment(segment_at(record, 0), GOOD_SEGMENT[first[f]]);
            for (size_t i = 0; i < BT_MOST_SEGMENTS; i++)
                take_sheet_at(s, record, i);
        }
    }
}

/* Both at once, in the first and in a later place; the last is what a kind that reads them would pass. */
static void spare_numbers(struct site *s)
{
    const u64 values[][2] = { { 0, 0 }, { 1, 0 }, { 0, 1 }, { MOST, MOST }, { 10001, 4294967296 }, { 96, 50 } };
    lone_site(s);
    u64 *record = record_at(s, 0);
    record[BT_SEGMENT_COUNT] = 2;
    for (u64 kind = BT_SEGMENT_UNPAVED; kind <= BT_SEGMENT_GIVEN; kind++)
        for (size_t i = 0; i < 2; i++)
            for (size_t j = 0; j < COUNT(values); j++) {
                u64 *segment = segment_at(record, i);
                set_segment(segment_at(record, 1 - i), GOOD_SEGMENT[BT_SEGMENT_CHANNEL]);
                set_segment(segment, GOOD_SEGMENT[kind]);
                memcpy(segment + BT_SEGMENT_WIDTH - 2, values[j], sizeof values[j]);
                take_site("spare numbers", s);
            }
}

/* ---- The sheet rule */

/* In every subarea; where the length is 0, in none. */
static void set_all_sheets(struct site *s, u64 length)
{
    for (size_t i = 0; i < subarea_count(s); i++)
        if (length == 0)
            set_segment(segment_at(record_at(s, i), 0), GOOD_SEGMENT[BT_SEGMENT_CHANNEL]);
        else
            set_sheet(record_at(s, i), length);
}

/* It is asked for also where no sheet segment goes by it. Some are 1 or 2 in their lower 32 bits. */
static void rules(struct site *s, struct prng *r)
{
    static const u64 lengths[] = { 0, 50, 100, 101, 300 };
    const u64 values[] = { 0, 1, 2, 3, 4, 100, 300, 4294967296, 4294967297, 4294967298, (u64)1 << 63, MOST - 1, MOST };
    for (size_t i = 0; i < COUNT(lengths); i++) {
        plain_site(s, r, 5, 7);
        set_all_sheets(s, lengths[i]);
        for (size_t j = 0; j < COUNT(values); j++)
            take_with("a sheet rule", s, &s->rule, values[j]);
    }
}

/* Sheet flow in one subarea, on both sides of both limits. */
static void sheet_lengths(struct site *s, struct prng *r)
{
    static const u64 lengths[] = { 0,   1,   99,  100,  101,  102,        199,        200,
                                   299, 300, 301, 4000, 4001, 4294967396, 4294967596, UINT64_MAX };
    for (u64 rule = BT_RULE_TR55; rule <= BT_RULE_WINTR55; rule++)
        for (int where = 0; where < 3; where++) {
            plain_site(s, r, 5, 7);
            s->rule = rule;
            set_all_sheets(s, 0);
            for (size_t i = 0; i < COUNT(lengths); i++) {
                set_sheet(record_at(s, place(where, 5)), lengths[i]);
                take_site("a sheet's length", s);
            }
        }
}

/* Two lengths in two subareas, in both orders: the first that is too long is charged. */
static void two_sheets(struct site *s, struct prng *r)
{
    static const u64 lengths[][2] = { { 101, 300 }, { 100, 101 }, { 101, 301 }, { 300, 301 } };
    for (size_t one = 0; one < 5; one++)
        for (size_t two = 0; two < 5; two++)
            for (size_t i = 0; i < COUNT(lengths) && one != two; i++) {
                plain_site(s, r, 5, 7);
                set_sheet(record_at(s, one), lengths[i][0]);
                set_sheet(record_at(s, two), lengths[i][1]);
                for (s->rule = BT_RULE_TR55; s->rule <= BT_RULE_WINTR55; s->rule++)
                    take_site("two sheets", s);
            }
}

/* 101 ft by rule 2: only a sheet segment that is read is too long, and it must be first in any case. */
static void lengths_beside(struct site *s, struct prng *r)
{
    for (u64 kind = BT_SEGMENT_UNPAVED; kind <= BT_SEGMENT_CHANNEL; kind++)
        for (size_t i = 0; i < BT_MOST_SEGMENTS; i++) {
            plain_site(s, r, 3, 7);
            s->rule = BT_RULE_WINTR55;
            u64 *record = record_at(s, 1), *segment = segment_at(record, i);
            set_segment(segment, GOOD_SEGMENT[kind]);
            segment[BT_LENGTH_AT] = 101;
            take_site("a kind's length by the rule of sheet flow", s);
            take_with("a length past the count", s, &record[BT_SEGMENT_COUNT], i);
        }
}

/* ---- Step, first row number */

static void steps(struct site *s, struct prng *r)
{
    static const u64 values[] = { 0,    1,    2,    58,   59,   60,         61,         62,  118,
                                  3597, 3598, 3599, 3600, 3601, 3602, 4294967356, 4294967416, 7200 };
    plain_site(s, r, 5, 7);
    for (int slow = 0; slow < 2; slow++) {
        for (size_t i = 0; i < COUNT(values); i++)
            take_with("step at its limits", s, &s->step, values[i]);
        set_all_concentrations(s, 3000); /* Tp 3,600 at D 3,600 */
    }
}

static void first_numbers(struct site *s, struct prng *r)
{
    static const size_t rows[] = { 1, 8, 12, 2000 };
    plain_site(s, r, 2, 5);
    for (size_t i = 0; i < COUNT(rows); i++) {
        u64 m = rows[i], last = BT_LAST_ROW_NUMBER;
        const u64 values[] = { 0,    1,           last - m,     last - m + 1, last - m + 2, last,     last + 1,
                               MOST, MOST - m,    MOST - m + 1, MOST - m + 2, MOST - m + 3, MOST / 2, MOST - 1 };
        set_rows(s, m);
        s->rain.len = m < 8 ? m + 1 : 9;
        for (size_t j = 0; j < COUNT(values); j++)
            take_with("last row number at its limit", s, &s->first, values[j]);
    }
}

/* ---- Lengths of lists */

static void row_lengths(struct site *s, struct prng *r)
{
    static const size_t lengths[] = { 0, 1, 2, 7, 8, 9, 13, 1999, 2000, 2001, 2002, ROOM };
    plain_site(s, r, 3, 5);
    for (size_t i = 0; i < COUNT(lengths); i++) {
        size_t m = lengths[i], other = m == ROOM ? m - 1 : m + 1;
        for (int which = 0; which < 8; which++) { /* each list has one length or the other */
            s->inflow = which & 1 ? other : m;
            s->outflow = which & 2 ? other : m;
            s->storage = which & 4 ? other : m;
            take_site("lengths of the row lists", s);
        }
    }
    set_rows(s, 12);
    s->storage = 0;
    take_site("no storage rows", s);
    s->storage = 2000;
    take_site("many storage rows", s);
}

static void rain_lengths(struct site *s, struct prng *r)
{
    static const size_t rows[] = { 1, 2, 12, 1999, 2000 };
    plain_site(s, r, 3, 5);
    for (size_t t = 9; t < ROOM; t++)
        s->rain.at[t] = s->rain.at[8];
    for (size_t i = 0; i < COUNT(rows); i++) {
        size_t m = rows[i];
        const size_t lengths[] = { 0, 1, 2, 3, m - 1, m, m + 1, m + 2, m + 3, 2001, 2002, ROOM };
        set_rows(s, m);
        for (size_t j = 0; j < COUNT(lengths); j++) {
            s->rain.len = lengths[j];
            take_site("length of the rain", s);
        }
    }
}

static void subarea_lengths(struct site *s, struct prng *r)
{
    plain_site(s, r, 18, 5);
    for (size_t records = 0; records <= 18; records++)
        for (size_t more = 0; more < 5; more++) {
            static const size_t extra[] = { 0, 1, BT_WIDTH / 2, BT_WIDTH - 2, BT_WIDTH - 1 };
            s->subareas.len = records * BT_WIDTH + extra[more];
            if (s->subareas.len <= 18 * BT_WIDTH)
                take_site("length of the subareas", s);
        }
    s->subareas.len = ROOM / BT_WIDTH * BT_WIDTH;
    take_site("length of the subareas", s);
}

static void pond_lengths(struct site *s, struct prng *r)
{
    plain_site(s, r, 2, 66);
    for (size_t len = 0; len <= 198; len++) {
        s->pond.len = len;
        take_site("length of the pond", s);
    }
    s->pond.len = ROOM;
    take_site("length of the pond", s);
}

/* ---- Rain entries */

static void rain_entries(struct site *s, struct prng *r)
{
    plain_site(s, r, 3, 5);
    for (int where = 0; where < 3; where++) {
        size_t t = 1 + place(where, s->rain.len - 1);
        u64 before = s->rain.at[t - 1];
        const u64 values[] = { before, before - 1, before + 1, 0, 29999, 30000, 30001, 4294967296 + before, MOST };
        for (size_t i = 0; i < COUNT(values); i++)
            take_with("a rain entry at its limits", s, &s->rain.at[t], values[i]);
    }
    take_with("rain entry 0", s, &s->rain.at[0], 1);
    u64 was = s->rain.at[6];
    s->rain.at[6] = 30001;
    take_with("rain falls, then is too much", s, &s->rain.at[3], 1);
    s->rain.at[6] = 1;
    take_with("rain is too much, then falls", s, &s->rain.at[3], 30001);
    s->rain.at[6] = was;
    for (size_t t = 1; t < s->rain.len; t++)
        s->rain.at[t] = 30000;
    take_site("all the rain at once", s);
    take_with("all the rain at once, and too much", s, &s->rain.at[8], 30001);
    for (size_t t = 1; t < s->rain.len; t++)
        s->rain.at[t] = 0;
    take_site("no rain", s);
    pour(s, 30000);
    for (u64 total = 29999; total <= 30001; total++)
        take_with("the most rain, as soon as it may come", s, &s->rain.at[8], total);
}

/* ---- Rises between rain entries */

static void take_rise(const char *kind, struct site *s, size_t t, u64 rise)
{
    struct list was = s->rain;
    set_rise(s, t, rise);
    take_site(kind, s);
    s->rain = was;
}

static void rises_at_limits(struct site *s)
{
    static const u64 rises[] = { 0, 3999, 4000, 4001, 4002, 8000, 20000 };
    for (int where = 0; where < 3; where++)
        for (size_t i = 0; i < COUNT(rises); i++)
            take_rise("a rise at its limit", s, 1 + place(where, s->rain.len - 1), rises[i]);
}

/* Every two entries: the first leap is charged. */
static void two_leaps(struct site *s)
{
    for (size_t one = 1; one < s->rain.len; one++)
        for (size_t two = one + 1; two < s->rain.len; two++) {
            struct list was = s->rain;
            set_rise(s, one, BT_MOST_RISE + 1);
            set_rise(s, two, BT_MOST_RISE + 1000);
            take_site("two leaps", s);
            s->rain = was;
        }
}

/* A leap at one entry and a fault of 3 at another, in both orders: 3 is asked of the whole rain first. The last two
   make a difference of 64 bits wrap to what 19 lets pass. */
static void leaps_and_bad_entries(struct site *s)
{
    struct list was = s->rain;
    for (size_t one = 1; one < s->rain.len; one++)
        for (size_t two = 1; two < s->rain.len; two++) {
            set_rise(s, one, BT_MOST_RISE + 1);
            u64 before = s->rain.at[two - 1];
            const u64 values[] = { before - 1, 30001, before + 4294967296, MOST, before + ((u64)1 << 63) };
            for (size_t i = 0; i < COUNT(values); i++)
                take_with("a leap and a bad entry", s, &s->rain.at[two], values[i]);
            s->rain.at[two - 1] = MOST;
            take_with("a leap and a rise that wraps", s, &s->rain.at[two], BT_MOST_RISE - 1);
            take_with("a leap and a rise that wraps", s, &s->rain.at[two], 0);
            s->rain = was;
        }
}

static void rain_rises(struct site *s, struct prng *r)
{
    plain_site(s, r, 3, 5);
    rises_at_limits(s);
    two_leaps(s);
    leaps_and_bad_entries(s);
}

/* ---- Total area */

static void share_area(struct site *s, u64 total)
{
    size_t count = subarea_count(s);
    for (size_t i = 0; i < count; i++) {
        u64 *record = record_at(s, i), rest = total / count + (i < total % count), each = rest / 8;
        for (size_t j = 0; j < BT_MOST_PATCHES; j++)
            patch_at(record, j)[2] = j < 7 ? each : rest - 7 * each;
    }
}

static void total_areas(struct site *s, struct prng *r)
{
    static const size_t counts[] = { 1, 2, 5, 16 };
    for (size_t i = 0; i < COUNT(counts); i++) {
        plain_site(s, r, counts[i], 5);
        for (u64 total = 199998; total <= 200002; total++) {
            share_area(s, total);
            take_site("total area at its limit", s);
        }
        share_area(s, 8 * 200000 * counts[i]);
        take_site("every patch of the greatest area", s);
    }
    lone_site(s);
    for (u64 area = 199999; area <= 200001; area++)
        take_with("one patch near the greatest area", s, &patch_at(record_at(s, 0), 0)[2], area);
}

/* ---- Tc and Tp */

/* Tries a Tc in the first, a middle and the last of five subareas. */
static void try_concentration(const char *kind, struct site *s, u64 step, u64 seconds, u64 others)
{
    s->step = step;
    for (int where = 0; where < 3; where++) {
        set_all_concentrations(s, others);
        set_concentration(record_at(s, place(where, 5)), seconds);
        take_site(kind, s);
    }
    set_all_concentrations(s, seconds);
    take_site(kind, s);
}

static void concentrations(struct site *s, struct prng *r)
{
    static const u64 seconds[] = { 1, 358, 359, 360, 361, 35999, 36000, 36001, 36002, 37000 };
    plain_site(s, r, 5, 7);
    for (size_t i = 0; i < COUNT(seconds); i++)
        try_concentration("Tc at its limits", s, 212, seconds[i], 1000);
}

static void peaks(struct site *s, struct prng *r)
{
    static const u64 steps[] = { 60,  62,  120, 208, 210, 212, 214, 216,  218,  300,
                                 428, 430, 432, 434, 436, 438, 440, 1800, 3598, 3600 };
    plain_site(s, r, 5, 7);
    for (size_t i = 0; i < COUNT(steps); i++) {
        u64 step = steps[i], most = 512 * step / 5, others = concentration_of(step, 3 * step);
        for (u64 peak = step - 2; peak <= step + 2; peak++)
            try_concentration("D beside Tp", s, step, concentration_of(step, peak), others);
        for (u64 peak = most - 1; peak <= most + 2 && peak <= reference_peak(step, 36000); peak++)
            try_concentration("5 Tp beside 512 D", s, step, concentration_of(step, peak), others);
    }
}

static void weights_at_random(struct site *s, struct prng *r)
{
    lone_site(s);
    patch_at(record_at(s, 0), 0)[2] = 200000;
    for (int i = 0; i < 400; i++) {
        s->step = 2 * between(r, 30, chance(r, 50) ? 150 : 1800);
        u64 least = reference_peak(s->step, 360), most = reference_peak(s->step, 36000), fit = 512 * s->step / 5;
        u64 peak = between(r, least < s->step ? s->step : least, most < fit ? most : fit);
        set_concentration(record_at(s, 0), concentration_of(s->step, peak));
        set_rows(s, 5 * peak / s->step + 9);
        pour(s, BT_MOST_RISE);
        take_site("every weight in the rows", s);
        pour(s, 30000);
        take_site("every weight in the rows, and the most rain", s);
    }
}

/* ---- Cover, means, drizzle */

static void set_cover(struct site *s, size_t i, u64 code)
{
    u64 *patch = patch_at(record_at(s, 0), i);
    patch[0] = code / 4 + 1;
    patch[1] = code % 4 + 1;
    patch[2] = 100000;
}

/* Rain about the greatest that yields nothing. */
static void rain_about_dry(const char *kind, struct site *s, struct prng *r)
{
    u64 tenths = reference_tenths(record_at(s, 0)), dry = (2000000 - 2000 * tenths) / tenths;
    const u64 rains[] = { 1, dry / 2, dry - 1, dry, dry + 1, dry + 2, dry + 20, between(r, 1, 30000), 30000 };
    for (size_t i = 0; i < COUNT(rains); i++) {
        pour(s, rains[i]);
        take_site(kind, s);
    }
}

static void drizzle(struct site *s, struct prng *r)
{
    lone_site(s);
    for (u64 code = 0; code < 88; code++) {
        set_cover(s, 0, code);
        rain_about_dry("drizzle on every cover and soil", s, r);
    }
}

/* Any mean; and 57 and 68 in equal areas, 62.5: of the numbers with a tenth the only one with a rain at which N is 0,
   1.2 in. */
static void drizzle_on_means(struct site *s, struct prng *r)
{
    lone_site(s);
    u64 *record = record_at(s, 0);
    for (int i = 0; i < 300; i++) {
        random_patches(record, r, between(r, 2, BT_MOST_PATCHES), 200000);
        rain_about_dry("drizzle on a mean", s, r);
    }
    static const u64 halves[] = { 2, 13, 1, 100000, 1, 1, 100000 };
    memcpy(record, halves, sizeof halves);
    rain_about_dry("drizzle on 62.5", s, r);
}

/* Equal areas of any two: the mean may end on a half. */
static void means(struct site *s)
{
    lone_site(s);
    record_at(s, 0)[BT_PATCH_COUNT] = 2;
    for (u64 one = 0; one < 88; one++)
        for (u64 two = 0; two <= one; two++) {
            set_cover(s, 0, one);
            set_cover(s, 1, two);
            take_site("the mean of two covers", s);
        }
}

/* Any two in parts of 1 and 19: where their sum is odd, the mean ends on half a tenth. And with a hundredth of an acre
   more of the one, or of the other: beside it. The rain is such that every tenth shows. */
static void tenths_beside_a_half(struct site *s)
{
    lone_site(s);
    pour(s, 30000);
    u64 *record = record_at(s, 0);
    record[BT_PATCH_COUNT] = 2;
    for (u64 one = 0; one < 88; one++)
        for (u64 two = 0; two < one; two++) {
            set_cover(s, 0, one);
            set_cover(s, 1, two);
            for (u64 less = 0; less < 3; less++) {
                patch_at(record, 0)[2] = 5001 - less;
                patch_at(record, 1)[2] = 94999 + less;
                take_site("a mean on half a tenth, and beside it", s);
            }
        }
}

static void runoffs_at_random(struct site *s, struct prng *r)
{
    lone_site(s);
    for (int i = 0; i < 2000; i++) {
        random_patches(record_at(s, 0), r, between(r, 1, BT_MOST_PATCHES), 200000);
        pour(s, between(r, 1, 30000));
        take_site("one rain, one mean", s);
    }
}

/* ---- The pond */

static void pond_columns(struct site *s, size_t i)
{
    static const u64 most[] = { 1000000, 1000000000000, 10000000 };
    for (size_t column = 0; column < 3; column++) {
        u64 *at = pond_row_at(s, i) + column, before = i == 0 ? 0 : at[-3];
        const u64 values[] = { 0, 1, before, before - 1, before + 1, most[column] - 1, most[column], most[column] + 1 };
        for (size_t j = 0; j < COUNT(values); j++)
            take_with("a pond row at its limits", s, at, values[j]);
    }
}

static void pond_limits(struct site *s, struct prng *r)
{
    static const size_t rows[] = { 2, 7, 64 };
    for (size_t i = 0; i < COUNT(rows); i++) {
        plain_site(s, r, 2, rows[i]);
        pond_columns(s, 0);
        for (int where = 0; where < 3; where++)
            pond_columns(s, 1 + place(where, rows[i] - 1));
    }
}

/* All three columns at the top, and one past it. */
static void greatest_pond(struct site *s, struct prng *r)
{
    plain_site(s, r, 2, 2);
    u64 *last = pond_row_at(s, 1);
    last[0] = 1000000;
    last[1] = 1000000000000;
    last[2] = 10000000;
    pond_row_at(s, 0)[0] = 999999;
    take_site("the greatest pond", s);
    for (size_t column = 0; column < 3; column++)
        take_with("past the greatest pond", s, &last[column], last[column] + 1);
    take_with("the first stage as high as the last", s, &pond_row_at(s, 0)[0], 1000000);
    take_with("the first stage too high", s, &pond_row_at(s, 0)[0], 1000001);
    take_with("the first storage not 0", s, &pond_row_at(s, 0)[1], 1);
    take_with("the first discharge not 0", s, &pond_row_at(s, 0)[2], 1);
}

/* Storage one less than h times discharge, the same, one more. */
static void pond_storages(struct site *s, struct prng *r)
{
    static const u64 steps[] = { 60, 120, 300 };
    for (size_t i = 0; i < COUNT(steps); i++)
        for (int where = 0; where < 3; where++)
            for (u64 more = 0; more < 3; more++) {
                plain_site(s, r, 2, 7);
                s->step = steps[i];
                size_t row = 1 + place(where, 6);
                u64 discharge = pond_row_at(s, row)[1] / (s->step / 2);
                for (size_t j = row; j < 7; j++)
                    pond_row_at(s, j)[2] = discharge;
                pond_row_at(s, row)[1] = s->step / 2 * discharge + more - 1;
                take_site("storage beside h times discharge", s);
            }
}

/* ---- Refusal 14: the pond is cut off at, and just below, the X of a row */

static void storm_site(struct site *s, struct prng *r)
{
    plain_site(s, r, 3, 3);
    set_rows(s, 14);
    for (size_t t = 1; t <= 8; t++)
        s->rain.at[t] = 3000 * t + below(r, 1000);
}

static void rows_of(const struct site *s, u64 *inflow, u64 *outflow, u64 *storage)
{
    u64 answer[BT_ANSWER_LENGTH];
    reference_study(s->step, s->first, s->rule, s->rain.at, s->rain.len, s->subareas.at, s->subareas.len, s->pond.at,
                    s->pond.len, inflow, s->inflow, outflow, s->outflow, storage, s->storage, answer);
}

/* Above its middle row the pond has one discharge, so that cutting it short changes no row below the cut. */
static void cut_pond(struct site *s, u64 discharge)
{
    u64 inflow[ROOM], outflow[ROOM], storage[ROOM], half = s->step / 2;
    u64 *last = pond_row_at(s, 2), *middle = pond_row_at(s, 1);
    middle[1] = half * discharge + 1;
    middle[2] = last[2] = discharge;
    last[1] = 900000000000;
    rows_of(s, inflow, outflow, storage);
    for (size_t k = 0; k < s->inflow; k++)
        for (u64 less = 0; less < 3; less++) {
            u64 cut = storage[k] + half * outflow[k] - half * discharge - less;
            if (cut > middle[1] && cut <= 1000000000000)
                take_with("the pond cut off at a row", s, &last[1], cut);
        }
}

static void full_ponds(struct site *s, struct prng *r)
{
    for (int i = 0; i < 8; i++) {
        storm_site(s, r);
        cut_pond(s, 0);
        cut_pond(s, between(r, 1, 1000));
        cut_pond(s, between(r, 1, 1000000));
    }
}

/* ---- Outflow just below a whole number, and on it */

/* The least discharge above q, if any below 2 q, for which q divides discharge x + 1. */
static u64 discharge_for(u64 x, u64 q)
{
    u64 rest = (x % q + 1) % q; /* of (q + 1) x + 1, as of x + 1 */
    for (u64 discharge = q + 1; discharge < 2 * q; discharge++) {
        if (rest == 0)
            return discharge;
        rest = (rest + x % q) % q;
    }
    return 0;
}

/* Two pond rows. Row 1's X is its inflow x, and its outflow discharge x / X_2 lies 1 / X_2 below q. */
static void close_lines(struct site *s, struct prng *r)
{
    u64 inflow[ROOM], outflow[ROOM], storage[ROOM], *last = pond_row_at(s, 1);
    for (int i = 0; i < 60; i++) {
        lone_site(s);
        patch_at(record_at(s, 0), 0)[2] = between(r, 100000, 200000);
        s->rain.at[1] = between(r, 3000, BT_MOST_RISE);
        rows_of(s, inflow, outflow, storage);
        u64 x = inflow[0], q = between(r, 500000, 4000000), half = s->step / 2;
        s->pond.len = 6;
        last[2] = discharge_for(x, q);
        last[1] = (last[2] * x + 1) / q - half * last[2];
        for (u64 more = 0; more < 3; more++)
            take_with("outflow beside a whole number", s, &last[1], last[1] + more - 1);
    }
}

/* ---- Two faults at once */

/* The later number's fault goes in first, since some faults make room for others. Each takes each place. */
static void two_faults(struct site *s, struct prng *r)
{
    for (size_t one = 0; one < STUDY_FAULTS; one++)
        for (size_t two = one; two < STUDY_FAULTS; two++)
            for (int where = 0; where < 9; where++) {
                *s = (struct site){ 0 };
                plain_site(s, r, 5, 7);
                FAULTS[two].make(s, where / 3);
                FAULTS[one].make(s, where % 3);
                take_site("two faults", s);
            }
}

static void every_fault_from_one_on(struct site *s, struct prng *r)
{
    for (size_t one = 0; one < STUDY_FAULTS; one++)
        for (int where = 0; where < 3; where++) {
            *s = (struct site){ 0 };
            plain_site(s, r, 5, 7);
            for (size_t other = STUDY_FAULTS; other-- > one;)
                FAULTS[other].make(s, where);
            take_site("every fault from one number on", s);
        }
}

/* ---- Few rows and many */

/* Rain that rises in each of n steps. */
static void rain_throughout(struct site *s, size_t n)
{
    u64 most = n < 8 ? BT_MOST_RISE * n : 30000;
    s->rain.len = n + 1;
    for (size_t t = 0; t <= n; t++)
        s->rain.at[t] = most * t / n;
}

static void row_counts(struct site *s, struct prng *r)
{
    static const size_t rows[] = { 1, 2, 3, 1999, 2000 };
    for (size_t i = 0; i < COUNT(rows); i++) {
        size_t m = rows[i];
        const size_t rain_steps[] = { 1, (m + 1) / 2, m - (m > 1), m };
        for (size_t j = 0; j < COUNT(rain_steps); j++) {
            plain_site(s, r, 2, 9);
            set_rows(s, m);
            rain_throughout(s, rain_steps[j]);
            take_site("few rows and many", s);
        }
    }
}

/* The rows end with the rain, beside the weights, and about the row that the last weight of the last rain step falls
   into. */
static void rows_beside_pieces(struct site *s, size_t n, size_t weights)
{
    const size_t last = n + weights - 1, rows[] = { n, weights - 1, weights, weights + 1, last - 1, last, last + 1 };
    rain_throughout(s, n);
    for (size_t i = 0; i < COUNT(rows); i++) {
        set_rows(s, rows[i]);
        if (n <= rows[i])
            take_study("rain and rows beside the weights", s);
    }
}

static void rain_beside_weights(struct site *s, struct prng *r)
{
    static const u64 steps[] = { 60, 120, 212, 300, 900, 3600 };
    for (size_t i = 0; i < COUNT(steps); i++) {
        lone_site(s);
        s->step = steps[i];
        u64 least = reference_peak(s->step, 360), most = reference_peak(s->step, 36000);
        u64 peak = between(r, least < s->step ? s->step : least, most < 20 * s->step ? most : 20 * s->step);
        const size_t weights = 5 * peak / s->step;
        const size_t rain_steps[] = { 1, 2, weights - 1, weights, weights + 1, 3 * weights };
        set_concentration(record_at(s, 0), concentration_of(s->step, peak));
        for (size_t j = 0; j < COUNT(rain_steps); j++)
            rows_beside_pieces(s, rain_steps[j], weights);
    }
}

/* As many rows, rain entries, subareas and weights as there may be. */
static void greatest_size(struct site *s, struct prng *r)
{
    large_site(s, r);
    rain_throughout(s, BT_MOST_ROWS);
    take_study("the greatest size", s);
}

/* ---- All of them */

void chosen_cases(u64 seed)
{
    static struct site s;
    static void (*const plain[])(struct site *) = { segment_corners, manning_corners, exact_times, greatest_times,
                                                    spare_numbers, means, tenths_beside_a_half };
    static void (*const random[])(struct site *, struct prng *) = {
        every_number_of_three_sites, record_limits_of_two_sites, times_at_random, steps, first_numbers,
        row_lengths, rain_lengths, subarea_lengths, pond_lengths, rain_entries, total_areas, concentrations, peaks,
        weights_at_random, drizzle, drizzle_on_means, runoffs_at_random, pond_limits, greatest_pond, pond_storages, full_ponds,
        close_lines, two_faults, every_fault_from_one_on, row_counts, rain_rises, kinds, sheet_places, rules,
        sheet_lengths, two_sheets, lengths_beside, rain_beside_weights, greatest_size,
    };
    for (size_t i = 0; i < COUNT(plain); i++) {
        s = (struct site){ 0 };
        plain[i](&s);
    }
    for (size_t i = 0; i < COUNT(random); i++) {
        struct prng r = prng_of(seed, i);
        s = (struct site){ 0 };
        random[i](&s, &r);
    }
}
