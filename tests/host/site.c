#include "site.h"

#include <string.h>

/* ---- Random numbers. No two are drawn in one expression whose order is the compiler's, so that a seed has the same cases on
   every machine. */

u64 any(struct prng *r)
{
    r->state += 0x9e3779b97f4a7c15u;
    u64 z = r->state;
    z = (z ^ z >> 30) * 0xbf58476d1ce4e5b9u;
    z = (z ^ z >> 27) * 0x94d049bb133111ebu;
    return z ^ z >> 31;
}

struct prng prng_of(u64 seed, u64 number)
{
    struct prng a = { seed }, b = { number };
    return (struct prng){ any(&a) ^ any(&b) * 3 };
}

u64 below(struct prng *r, u64 n)
{
    return any(r) % n;
}

static u64 any_width(struct prng *r)
{
    u64 all = any(r);
    return all >> below(r, 64);
}

u64 between(struct prng *r, u64 least, u64 most)
{
    return least + below(r, most - least + 1);
}

bool chance(struct prng *r, u64 percent)
{
    return below(r, 100) < percent;
}

/* ---- Parts */

size_t place(int where, size_t count)
{
    return where == 0 ? 0 : where == 1 ? count / 2 : count - 1;
}

size_t subarea_count(const struct site *s)
{
    return s->subareas.len / BT_WIDTH;
}

size_t pond_rows(const struct site *s)
{
    return s->pond.len / BT_POND_WIDTH;
}

u64 *record_at(struct site *s, size_t i)
{
    return s->subareas.at + BT_WIDTH * i;
}

u64 *patch_at(u64 *record, size_t i)
{
    return record + BT_PATCHES + BT_PATCH_WIDTH * i;
}

u64 *segment_at(u64 *record, size_t i)
{
    return record + BT_SEGMENTS + BT_SEGMENT_WIDTH * i;
}

static size_t place_read(u64 count, size_t most, struct prng *r)
{
    return below(r, 1 <= count && count <= most ? count : most);
}

u64 *some_patch(u64 *record, struct prng *r)
{
    return patch_at(record, place_read(record[BT_PATCH_COUNT], BT_MOST_PATCHES, r));
}

u64 *some_segment(u64 *record, struct prng *r)
{
    return segment_at(record, place_read(record[BT_SEGMENT_COUNT], BT_MOST_SEGMENTS, r));
}

u64 *pond_row_at(struct site *s, size_t i)
{
    return s->pond.at + BT_POND_WIDTH * i;
}

void set_rows(struct site *s, size_t m)
{
    s->inflow = s->outflow = s->storage = m;
}

static void set_triple(u64 *at, u64 a, u64 b, u64 c)
{
    at[0] = a;
    at[1] = b;
    at[2] = c;
}

void set_segment(u64 *at, const u64 *numbers)
{
    memcpy(at, numbers, BT_SEGMENT_WIDTH * sizeof *at);
}

/* What stands in its spare numbers is left there. */
static void set_given(u64 *at, u64 length, u64 velocity)
{
    set_triple(at, BT_SEGMENT_GIVEN, length, velocity);
}

/* Tens of seconds at a tenth of a foot a second, then single ones at one foot a second. */
void add_time(u64 *record, u64 seconds)
{
    u64 *count = &record[BT_SEGMENT_COUNT];
    if (seconds >= 10)
        set_given(segment_at(record, (*count)++), seconds / 10, 10);
    if (seconds % 10 != 0)
        set_given(segment_at(record, (*count)++), seconds % 10, 100);
}

void set_concentration(u64 *record, u64 seconds)
{
    record[BT_SEGMENT_COUNT] = 0;
    add_time(record, seconds);
}

u64 concentration_of(u64 step, u64 peak)
{
    return (5 * (peak - step / 2) + 2) / 3;
}

/* Storage grows faster than stage; discharge is 'percent' of the most that refusal 13 allows. */
void set_pond(struct site *s, size_t rows, u64 capacity, u64 half, u64 percent)
{
    s->pond.len = BT_POND_WIDTH * rows;
    for (size_t i = 0; i < rows; i++) {
        u64 storage = i + capacity / ((rows - 1) * (rows - 1)) * i * i;
        u64 discharge = storage / half * percent / 100;
        set_triple(pond_row_at(s, i), 250 * i, storage, discharge < 10000000 ? discharge : 10000000);
    }
}

/* ---- Segments */

const u64 GOOD_SEGMENT[BT_SEGMENT_CHANNEL + 1][BT_SEGMENT_WIDTH] = {
    [BT_SEGMENT_UNPAVED] = { BT_SEGMENT_UNPAVED, 500, 200 },
    [BT_SEGMENT_PAVED] = { BT_SEGMENT_PAVED, 500, 200 },
    [BT_SEGMENT_GIVEN] = { BT_SEGMENT_GIVEN, 900, 200 },
    [BT_SEGMENT_SHEET] = { BT_SEGMENT_SHEET, 100, 240, 3600, 100 },
    [BT_SEGMENT_CHANNEL] = { BT_SEGMENT_CHANNEL, 900, 50, 96, 50 },
};

/* Of each number of a segment but its kind, by kind. What a kind has no range for is spare. */
typedef const struct range ranges[BT_SEGMENT_CHANNEL + 1][BT_SEGMENT_WIDTH];

static ranges ALLOWED = {
    [BT_SEGMENT_UNPAVED] = { [BT_LENGTH_AT] = { 1, 4000 }, { 1, 10000 } },
    [BT_SEGMENT_PAVED] = { [BT_LENGTH_AT] = { 1, 4000 }, { 1, 10000 } },
    [BT_SEGMENT_GIVEN] = { [BT_LENGTH_AT] = { 1, 4000 }, { 1, 10000 } },
    [BT_SEGMENT_SHEET] = { [BT_LENGTH_AT] = { 1, 300 }, { 1, 999 }, { 1, 30000 }, { 1, 10000 } },
    [BT_SEGMENT_CHANNEL] = { [BT_LENGTH_AT] = { 1, 4000 }, { 1, 999 }, { 1, 10000 }, { 1, 10000 } },
};

static ranges USUAL = {
    [BT_SEGMENT_UNPAVED] = { [BT_LENGTH_AT] = { 5, 1500 }, { 20, 900 } },
    [BT_SEGMENT_PAVED] = { [BT_LENGTH_AT] = { 5, 1500 }, { 20, 900 } },
    [BT_SEGMENT_GIVEN] = { [BT_LENGTH_AT] = { 5, 1500 }, { 20, 900 } },
    [BT_SEGMENT_SHEET] = { [BT_LENGTH_AT] = { 20, 300 }, { 11, 400 }, { 1500, 6000 }, { 20, 900 } },
    [BT_SEGMENT_CHANNEL] = { [BT_LENGTH_AT] = { 50, 4000 }, { 12, 150 }, { 20, 600 }, { 5, 500 } },
};

/* Six of them take 600 to 4,300 seconds. */
static ranges PLAIN = {
    [BT_SEGMENT_UNPAVED] = { [BT_LENGTH_AT] = { 600, 1000 }, { 150, 300 } },
    [BT_SEGMENT_PAVED] = { [BT_LENGTH_AT] = { 600, 1000 }, { 150, 300 } },
    [BT_SEGMENT_GIVEN] = { [BT_LENGTH_AT] = { 600, 1000 }, { 150, 300 } },
    [BT_SEGMENT_SHEET] = { [BT_LENGTH_AT] = { 50, 100 }, { 100, 200 }, { 2500, 4000 }, { 150, 300 } },
    [BT_SEGMENT_CHANNEL] = { [BT_LENGTH_AT] = { 600, 1000 }, { 45, 60 }, { 50, 120 }, { 150, 250 } },
};

/* As the table has it, which goes by rule 1: by rule 2 sheet flow ends sooner. */
static struct range range_in(ranges in, u64 rule, u64 kind, size_t i)
{
    struct range own = in[kind][i];
    if (rule == BT_RULE_WINTR55 && kind == BT_SEGMENT_SHEET && i == BT_LENGTH_AT)
        own.most = 100;
    return own;
}

struct range segment_range(u64 rule, u64 kind, size_t i)
{
    static const struct range kinds = { BT_SEGMENT_UNPAVED, BT_SEGMENT_CHANNEL }, any_at_all = { 0, UINT64_MAX };
    if (i == BT_KIND_AT)
        return kinds;
    return ALLOWED[kind][i].most == 0 ? any_at_all : range_in(ALLOWED, rule, kind, i);
}

/* What stands in its spare numbers is left there. */
static void segment_within(ranges in, u64 rule, u64 *at, u64 kind, struct prng *r)
{
    at[BT_KIND_AT] = kind;
    for (size_t i = BT_LENGTH_AT; i < BT_SEGMENT_WIDTH && in[kind][i].most != 0; i++) {
        struct range own = range_in(in, rule, kind, i);
        at[i] = between(r, own.least, own.most);
    }
}

void random_segment(u64 rule, u64 *at, u64 kind, struct prng *r)
{
    segment_within(chance(r, 80) ? USUAL : ALLOWED, rule, at, kind, r);
}

void set_sheet(u64 *record, u64 length)
{
    set_segment(segment_at(record, 0), GOOD_SEGMENT[BT_SEGMENT_SHEET]);
    segment_at(record, 0)[BT_LENGTH_AT] = length;
}

/* ---- Subareas */

void litter(u64 *record, struct prng *r)
{
    bool clean = chance(r, 30);
    for (size_t i = 0; i < BT_WIDTH; i++)
        record[i] = clean ? 0 : chance(r, 30) ? UINT64_MAX : any_width(r);
}

/* Often of one size, so that means fall on halves. */
void random_patches(u64 *record, struct prng *r, size_t count, u64 most)
{
    u64 each = most / count, same = between(r, 1, each);
    bool alike = chance(r, 40);
    record[BT_PATCH_COUNT] = count;
    for (size_t i = 0; i < count; i++) {
        u64 area = alike ? same : between(r, 1, each), soil = between(r, 1, 4);
        set_triple(patch_at(record, i), between(r, 1, 22), soil, area);
    }
}

/* A sheet segment only where it may stand. */
static u64 random_kind(struct prng *r, bool first)
{
    static const u64 others[] = { BT_SEGMENT_UNPAVED, BT_SEGMENT_PAVED, BT_SEGMENT_GIVEN, BT_SEGMENT_CHANNEL };
    return first && chance(r, 40) ? BT_SEGMENT_SHEET : others[below(r, 4)];
}

/* Segments whose times together lie between the two bounds, or near them. */
static void random_path(u64 rule, u64 *record, struct prng *r, u64 least, u64 most)
{
    u64 total = 0, count = 0, tries = between(r, 1, 5);
    while (tries-- > 0) {
        u64 *at = segment_at(record, count);
        random_segment(rule, at, random_kind(r, count == 0), r);
        u64 time = reference_segment(at);
        if (total + time > most)
            continue;
        total += time;
        count++;
    }
    if (count == 0 || total < least) {
        u64 rest = between(r, total < least ? least - total : 0, most - total);
        if (rest < 4000)
            set_given(segment_at(record, count++), rest + 1, 100);
        else
            set_given(segment_at(record, count++), rest / 10, 10);
    }
    record[BT_SEGMENT_COUNT] = count;
}

/* So many seconds, the first of them by a segment of any kind where its time leaves room. */
static void random_path_of(u64 rule, u64 *record, struct prng *r, u64 seconds)
{
    u64 *first = segment_at(record, 0);
    random_segment(rule, first, random_kind(r, true), r);
    u64 time = reference_segment(first);
    record[BT_SEGMENT_COUNT] = time <= seconds;
    add_time(record, time <= seconds ? seconds - time : seconds);
}

/* Tc such that D <= Tp, and 5 Tp <= 512 D. */
static u64 least_concentration(u64 step)
{
    return step <= 432 ? 0 : concentration_of(step, step) + 10;
}

static u64 most_concentration(u64 step)
{
    u64 most = 169 * step;
    return most < 36000 ? most : 36000;
}

void fitting_path(const struct site *s, u64 *record, struct prng *r)
{
    random_path(s->rule, record, r, least_concentration(s->step), most_concentration(s->step));
}

void fitting_record(const struct site *s, u64 *record, struct prng *r, u64 most)
{
    litter(record, r);
    random_patches(record, r, chance(r, 50) ? between(r, 1, 3) : between(r, 1, BT_MOST_PATCHES), most);
    fitting_path(s, record, r);
}

static void random_subareas(struct site *s, struct prng *r, size_t count, u64 most)
{
    s->subareas.len = BT_WIDTH * count;
    for (size_t i = 0; i < count; i++)
        fitting_record(s, record_at(s, i), r, most / count);
}

/* ---- Rain and pond */

void pour(struct site *s, u64 total)
{
    size_t n = total == 0 ? 1 : (total + BT_MOST_RISE - 1) / BT_MOST_RISE;
    s->rain.len = n + 1;
    s->rain.at[0] = 0;
    for (size_t t = 1; t <= n; t++)
        s->rain.at[t] = t < n ? BT_MOST_RISE * t : total;
}

void set_rise(struct site *s, size_t t, u64 rise)
{
    u64 more = s->rain.at[t - 1] + rise - s->rain.at[t];
    for (; t < s->rain.len; t++)
        s->rain.at[t] += more;
}

/* Takes from each rise what 19 refuses; the storm then ends lower. */
static void soften(struct list *rain)
{
    u64 before = 0;
    for (size_t t = 1; t < rain->len; t++) {
        u64 own = rain->at[t], rise = own - before;
        rain->at[t] = rain->at[t - 1] + (rise < BT_MOST_RISE ? rise : BT_MOST_RISE);
        before = own;
    }
}

/* n steps that reach 'total', or come near it; some dry, some heavy. */
static void random_rain(struct site *s, struct prng *r, size_t n, u64 total)
{
    u64 sum = 0, dry = below(r, 80);
    s->rain.len = n + 1;
    s->rain.at[0] = 0;
    for (size_t t = 1; t <= n; t++)
        s->rain.at[t] = sum += chance(r, dry) ? 0 : chance(r, 10) ? below(r, 2000) : below(r, 100);
    for (size_t t = 1; t <= n; t++)
        s->rain.at[t] = sum == 0 ? total : s->rain.at[t] * total / sum;
    soften(&s->rain);
}

static u64 area_of(const u64 *record)
{
    u64 area = 0;
    for (u64 j = 0; j < record[BT_PATCH_COUNT] && j < BT_MOST_PATCHES; j++)
        area += record[BT_PATCHES + BT_PATCH_WIDTH * j + 2];
    return area;
}

u64 total_area(const struct site *s)
{
    u64 total = 0;
    for (size_t i = 0; i < subarea_count(s); i++)
        total += area_of(s->subareas.at + BT_WIDTH * i);
    return total;
}

/* The volume of all the rain on all the area: more than can ever run in. */
static u64 all_water(const struct site *s)
{
    return reference_volume(total_area(s), 1000 * s->rain.at[s->rain.len - 1]);
}

/* Uneven rows, up to a capacity near 'water'. */
static void random_pond(struct site *s, struct prng *r, size_t rows, u64 water)
{
    u64 half = s->step / 2, percent = chance(r, 15) ? 0 : between(r, 1, 100);
    u64 stage = chance(r, 50) ? 0 : below(r, 5000), storage = 0, discharge = 0;
    s->pond.len = BT_POND_WIDTH * rows;
    set_triple(pond_row_at(s, 0), stage, 0, 0);
    for (size_t i = 1; i < rows; i++) {
        stage += between(r, 1, 2000);
        storage += between(r, 1, 2 * water / rows + 2);
        u64 wish = storage / half * percent / 100 * between(r, 50, 100) / 100;
        if (wish > discharge)
            discharge = wish < 10000000 ? wish : 10000000;
        set_triple(pond_row_at(s, i), stage, storage, discharge);
    }
}

/* ---- Whole sites */

static u64 random_rule(struct prng *r)
{
    return chance(r, 50) ? BT_RULE_TR55 : BT_RULE_WINTR55;
}

void plain_site(struct site *s, struct prng *r, size_t count, size_t rows)
{
    s->step = chance(r, 50) ? 120 : 300;
    s->first = between(r, 1, 1000);
    s->rule = random_rule(r);
    set_rows(s, 12);
    s->rain.len = 9;
    for (size_t t = 1; t <= 8; t++)
        s->rain.at[t] = 500 * t + below(r, 400); /* rising, so that each entry can be too low */
    s->subareas.len = BT_WIDTH * count;
    for (size_t i = 0; i < count; i++) {
        random_patches(record_at(s, i), r, BT_MOST_PATCHES, 100000 / count);
        for (size_t j = 0; j < BT_MOST_SEGMENTS; j++)
            segment_within(PLAIN, s->rule, segment_at(record_at(s, i), j), random_kind(r, j == 0), r);
        record_at(s, i)[BT_SEGMENT_COUNT] = BT_MOST_SEGMENTS;
    }
    set_pond(s, rows, all_water(s) * 2, 1800, 100);
}

static u64 likely_step(struct prng *r)
{
    static const u64 usual[] = { 60, 120, 180, 300, 360, 600, 900, 1800, 3600 };
    return chance(r, 70) ? usual[below(r, 9)] : 2 * between(r, 30, 1800);
}

static size_t likely_count(struct prng *r)
{
    return chance(r, 75) ? between(r, 1, 4) : between(r, 1, BT_MOST_SUBAREAS);
}

void likely_site(struct site *s, struct prng *r)
{
    size_t n = chance(r, 90) ? between(r, 1, 40) : between(r, 1, 200);
    s->step = likely_step(r);
    s->first = chance(r, 90) ? below(r, 1000) : BT_LAST_ROW_NUMBER - 1000 + below(r, 1000);
    s->rule = random_rule(r);
    set_rows(s, n + (chance(r, 80) ? below(r, 60) : 0));
    random_rain(s, r, n, chance(r, 90) ? between(r, 100, 9000) : between(r, 0, 30000));
    u64 area = chance(r, 70) ? between(r, 2000, 30000) : 200000;
    random_subareas(s, r, likely_count(r), area);
    u64 water = all_water(s) * between(r, 2, 130) / 100;
    random_pond(s, r, chance(r, 80) ? between(r, 2, 12) : between(r, 2, 64), water);
}

void large_site(struct site *s, struct prng *r)
{
    s->step = 60;
    s->first = below(r, 1000000);
    s->rule = random_rule(r);
    set_rows(s, BT_MOST_ROWS);
    u64 total = between(r, 2000, 30000);
    random_rain(s, r, chance(r, 50) ? BT_MOST_ROWS : between(r, 200, BT_MOST_ROWS), total);
    random_subareas(s, r, BT_MOST_SUBAREAS, 200000);
    for (size_t i = 0; i < BT_MOST_SUBAREAS; i++)
        random_path_of(s->rule, record_at(s, i), r, between(r, 10190, 10191)); /* Tp 6,144 */
    random_pond(s, r, BT_MOST_POND_ROWS, all_water(s) * between(r, 20, 130) / 100);
}

/* ---- Hostile sites */

u64 nasty(struct prng *r, u64 was)
{
    static const u64 edges[] = {
        0, 1, 2, 3, 4, 6, 7, 8, 9, 16, 22, 60, 100, 300, 360, 512, 999, 2000, 3600, 4000, 10000, 30000, 36000,
        200000, 1000000, 10000000, 4294967296, 217800000000, 1000000000000, 9007199254740991, 9223372036854775807,
        UINT64_MAX,
    };
    switch (below(r, 6)) {
    case 0: return was + 1;
    case 1: return was - 1;
    case 2: return any_width(r);
    case 3: return was + (between(r, 1, 3) << 32);
    }
    u64 edge = edges[below(r, sizeof edges / sizeof *edges)];
    return edge + below(r, 3) - 1;
}

static void spoil_number(struct list *l, struct prng *r)
{
    if (l->len == 0)
        return;
    u64 *at = &l->at[below(r, l->len)];
    *at = nasty(r, *at);
}

/* One of the counts, or a number of a patch or of a segment; of a segment also a spare one. */
static u64 *some_number(u64 *record, struct prng *r)
{
    switch (below(r, 4)) {
    case 0: return record + BT_PATCH_COUNT;
    case 1: return record + BT_SEGMENT_COUNT;
    case 2: return some_patch(record, r) + below(r, BT_PATCH_WIDTH);
    default: return some_segment(record, r) + below(r, BT_SEGMENT_WIDTH);
    }
}

void spoil_record(const struct site *s, u64 *record, struct prng *r)
{
    if (chance(r, 15)) {
        random_segment(s->rule, some_segment(record, r), BT_SEGMENT_SHEET, r); /* a good one, but perhaps not first */
        return;
    }
    if (chance(r, 10)) {
        set_sheet(record, segment_range(s->rule, BT_SEGMENT_SHEET, BT_LENGTH_AT).most + below(r, 3));
        return;
    }
    u64 *at = some_number(record, r);
    *at = nasty(r, *at);
}

static void spoil_some_record(struct site *s, struct prng *r)
{
    if (subarea_count(s) != 0)
        spoil_record(s, record_at(s, below(r, subarea_count(s))), r);
}

/* Makes a number the same as its like in the row before, or trades the two. */
static void spoil_order(struct list *l, size_t width, struct prng *r)
{
    if (l->len <= width)
        return;
    u64 *at = &l->at[between(r, width, l->len - 1)], was = *at;
    *at = at[-(ptrdiff_t)width];
    if (chance(r, 60))
        at[-(ptrdiff_t)width] = was;
}

static size_t other_length(size_t len, size_t width, struct prng *r)
{
    static const size_t steps[] = { 0, 1, 2 };
    size_t by = chance(r, 50) ? width : steps[below(r, 3)];
    size_t got = chance(r, 50) ? len + by : len < by ? 0 : len - by;
    return got < ROOM ? got : ROOM;
}

static void spoil_length(struct site *s, struct prng *r)
{
    switch (below(r, 7)) {
    case 0: s->rain.len = other_length(s->rain.len, s->inflow, r); break;
    case 1: s->subareas.len = other_length(s->subareas.len, BT_WIDTH, r); break;
    case 2: s->pond.len = other_length(s->pond.len, BT_POND_WIDTH, r); break;
    case 3: s->inflow = other_length(s->inflow, 1, r); break;
    case 4: s->outflow = other_length(s->outflow, 1, r); break;
    case 5: s->storage = other_length(s->storage, 1, r); break;
    default: set_rows(s, other_length(s->rain.len, 1, r)); break;
    }
}

/* A rise about as high as refusal 19 lets it be, or any. */
static void spoil_rise(struct site *s, struct prng *r)
{
    if (s->rain.len < 2)
        return;
    u64 rise = chance(r, 70) ? BT_MOST_RISE - 1 + below(r, 3) : below(r, 30000);
    set_rise(s, between(r, 1, s->rain.len - 1), rise);
}

/* Discharge from some row on about as high as refusal 13 lets it be. */
static void spoil_discharge(struct site *s, struct prng *r)
{
    if (pond_rows(s) == 0)
        return;
    size_t first = below(r, pond_rows(s));
    u64 half = s->step < 2 ? 1 : s->step / 2, least = pond_row_at(s, first)[1] / half + below(r, 2);
    for (size_t i = first; i < pond_rows(s); i++)
        if (pond_row_at(s, i)[2] < least)
            pond_row_at(s, i)[2] = least;
}

void spoil_time(const struct site *s, u64 *record, struct prng *r)
{
    const u64 near[] = { 36000, concentration_of(s->step, s->step) % 36000,
                         concentration_of(s->step, 512 * s->step / 5) % 36000, below(r, 36000) };
    u64 seconds = near[below(r, 4)];
    set_concentration(record, seconds + below(r, 4));
}

/* Nothing out of its own limits, but perhaps out of the study's. */
static void spoil_fit(struct site *s, struct prng *r)
{
    if (subarea_count(s) == 0)
        return;
    u64 *record = record_at(s, below(r, subarea_count(s)));
    switch (below(r, 3)) {
    case 0: spoil_time(s, record, r); break;
    case 1: patch_at(record, 0)[2] += 200000 - total_area(s) + below(r, 3); break;
    default: spoil_discharge(s, r); break;
    }
}

/* No rule at all; or the other one, and its sheets may be too long. */
static void spoil_rule(struct site *s, struct prng *r)
{
    const u64 wrong[] = { 0, 3, UINT64_MAX, nasty(r, s->rule) };
    s->rule = chance(r, 40) ? wrong[below(r, 4)] : s->rule == BT_RULE_TR55 ? BT_RULE_WINTR55 : BT_RULE_TR55;
}

static void spoil(struct site *s, struct prng *r)
{
    switch (below(r, 13)) {
    case 0: s->step = nasty(r, s->step); break;
    case 1: s->first = chance(r, 50) ? nasty(r, s->first) : BT_LAST_ROW_NUMBER - s->inflow + below(r, 4); break;
    case 2: spoil_number(&s->rain, r); break;
    case 3: spoil_order(&s->rain, 1, r); break;
    case 4: spoil_number(&s->pond, r); break;
    case 5: spoil_order(&s->pond, BT_POND_WIDTH, r); break;
    case 6: spoil_length(s, r); break;
    case 7:
    case 8: spoil_fit(s, r); break;
    case 9: spoil_rise(s, r); break;
    case 10: spoil_rule(s, r); break;
    default: spoil_some_record(s, r); break;
    }
}

void hostile_site(struct site *s, struct prng *r)
{
    likely_site(s, r);
    for (u64 n = between(r, 1, 3); n > 0; n--)
        spoil(s, r);
}
