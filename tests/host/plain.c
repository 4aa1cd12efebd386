#include "plain.h"

#include <stdbool.h>
#include <string.h>

typedef uint64_t u64;
typedef unsigned __int128 u128;

enum {
    MOST_WEIGHTS = 512,
    WIDE_LIMBS = 4,
    MOST_TIME = (1 << 23) - 1 /* above every time of a sheet or channel segment */
};

static const u64 MOST_AREA = 200000, MOST_INFLOW = 217800000000;

/* What a call is lent. */
struct job {
    u64 step, first, rule;
    const u64 *rain, *subareas, *pond;
    size_t rain_len, subareas_len, pond_len, rows;
    u64 sheet;                         /* how far sheet flow may run, once the rule is known */
    size_t count;                      /* subareas, once their number is known */
    u64 area, times[BT_MOST_SUBAREAS]; /* all of it, and Tc of each, once they are within limits */
};

struct refusal {
    u64 number, place;
};

static const struct refusal PASSED = { 0, 0 };

static struct refusal refused(u64 number, u64 place)
{
    return (struct refusal){ number, place };
}

/* ---- Records */

static const unsigned char COVER[22][4] = {
    { 68, 79, 86, 89 }, { 49, 69, 79, 84 }, { 39, 61, 74, 80 }, { 98, 98, 98, 98 }, { 98, 98, 98, 98 },
    { 83, 89, 92, 93 }, { 76, 85, 89, 91 }, { 72, 82, 87, 89 }, { 89, 92, 94, 95 }, { 81, 88, 91, 93 },
    { 77, 85, 90, 92 }, { 61, 75, 83, 87 }, { 57, 72, 81, 86 }, { 54, 70, 80, 85 }, { 51, 68, 79, 84 },
    { 46, 65, 77, 82 }, { 48, 67, 77, 83 }, { 35, 56, 70, 77 }, { 30, 48, 65, 73 }, { 57, 73, 82, 86 },
    { 43, 65, 76, 82 }, { 32, 58, 72, 79 },
};

static bool patches_good(const u64 *record)
{
    u64 count = record[BT_PATCH_COUNT];
    if (count < 1 || count > BT_MOST_PATCHES)
        return false;
    for (const u64 *p = record + BT_PATCHES, *end = p + BT_PATCH_WIDTH * count; p < end; p += BT_PATCH_WIDTH)
        if (p[0] < 1 || p[0] > 22 || p[1] < 1 || p[1] > 4 || p[2] < 1 || p[2] > MOST_AREA)
            return false;
    return true;
}

/* 1 to 'most': 0 wraps. */
static bool within(u64 number, u64 most)
{
    return number - 1 < most;
}

/* 'sheet': how far sheet flow may run. */
static bool segment_good(const u64 *s, bool first, u64 sheet)
{
    switch (s[BT_KIND_AT]) {
    case BT_SEGMENT_UNPAVED:
    case BT_SEGMENT_PAVED:
        return within(s[BT_LENGTH_AT], 4000) && within(s[BT_SHALLOW_SLOPE_AT], 10000);
    case BT_SEGMENT_GIVEN:
        return within(s[BT_LENGTH_AT], 4000) && within(s[BT_GIVEN_VELOCITY_AT], 10000);
    case BT_SEGMENT_SHEET:
        return first && within(s[BT_LENGTH_AT], sheet) && within(s[BT_SHEET_N_AT], 999) &&
               within(s[BT_SHEET_RAIN_AT], 30000) && within(s[BT_SHEET_SLOPE_AT], 10000);
    case BT_SEGMENT_CHANNEL:
        return within(s[BT_LENGTH_AT], 4000) && within(s[BT_CHANNEL_N_AT], 999) &&
               within(s[BT_CHANNEL_RADIUS_AT], 10000) && within(s[BT_CHANNEL_SLOPE_AT], 10000);
    default:
        return false;
    }
}

static bool segments_good(const u64 *record, u64 sheet)
{
    u64 count = record[BT_SEGMENT_COUNT];
    if (count < 1 || count > BT_MOST_SEGMENTS)
        return false;
    for (u64 i = 0; i < count; i++)
        if (!segment_good(record + BT_SEGMENTS + BT_SEGMENT_WIDTH * i, i == 0, sheet))
            return false;
    return true;
}

static u64 area_of(const u64 *record)
{
    u64 area = 0;
    for (u64 i = 0; i < record[BT_PATCH_COUNT]; i++)
        area += record[BT_PATCHES + BT_PATCH_WIDTH * i + 2];
    return area;
}

/* The mean curve number, in tenths. */
static u64 tenths_of(const u64 *record, u64 area)
{
    u64 sum = 0;
    for (u64 i = 0; i < record[BT_PATCH_COUNT]; i++) {
        const u64 *p = record + BT_PATCHES + BT_PATCH_WIDTH * i;
        sum += COVER[p[0] - 1][p[1] - 1] * p[2];
    }
    return (20 * sum + area) / (2 * area);
}

static void add_classes(const u64 *record, u64 *answer)
{
    for (u64 i = 0; i < record[BT_PATCH_COUNT]; i++) {
        const u64 *p = record + BT_PATCHES + BT_PATCH_WIDTH * i;
        answer[p[0] <= 8 ? BT_SURFACES : p[0] <= 10 ? BT_DISTRICTS : p[0] <= 16 ? BT_LOTS : BT_RURAL] += p[2];
    }
}

/* ---- Travel times */

/* Lowest limb first. 256 bits hold both sides of a test without T, and the left one about the root. */
struct wide {
    u64 limb[WIDE_LIMBS];
};

/* Gives what runs over. */
static u64 multiply(struct wide *w, u64 by)
{
    u128 carry = 0;
    for (int i = 0; i < WIDE_LIMBS; i++) {
        carry += (u128)w->limb[i] * by;
        w->limb[i] = (u64)carry;
        carry >>= 64;
    }
    return (u64)carry;
}

static struct wide product(const u64 *factors, size_t count)
{
    struct wide w = { { 1 } };
    for (size_t i = 0; i < count; i++)
        multiply(&w, factors[i]);
    return w;
}

static double near(const struct wide *w)
{
    double x = 0;
    for (int i = WIDE_LIMBS; i > 0; i--)
        x = x * 18446744073709551616.0 + (double)w->limb[i - 1];
    return x;
}

/* A root to be found: the largest T with T^(2 half) bottom <= top. */
struct sides {
    struct wide bottom, top;
    int half;
};

/* A left side that runs over is above every right one. */
static bool passes(const struct sides *s, u64 t)
{
    struct wide left = s->bottom;
    for (int i = 0; i < s->half; i++)
        if (multiply(&left, t * t) != 0)
            return false;
    for (int i = WIDE_LIMBS; i > 0; i--)
        if (left.limb[i - 1] != s->top.limb[i - 1])
            return left.limb[i - 1] < s->top.limb[i - 1];
    return true;
}

/* Where to begin; any number up to MOST_TIME would do. A double's bits, read as a whole number, go about as its
   logarithm does, so that dividing them takes a root to some per cent; then two steps by Halley, each of which makes
   three times as many digits right. */
static u64 guess(const struct sides *s)
{
    const u64 one = 0x3ff0000000000000, power = 2 * (u64)s->half;
    double q = near(&s->top) / near(&s->bottom), n = (double)power, t;
    u64 bits;
    memcpy(&bits, &q, sizeof bits);
    bits = bits / power + (one - one / power);
    memcpy(&t, &bits, sizeof t);
    for (int step = 0; step < 2; step++) {
        double own = t * t;
        for (int i = 1; i < s->half; i++)
            own *= t * t;
        t *= ((n - 1) * own + (n + 1) * q) / ((n + 1) * own + (n - 1) * q);
    }
    return t < MOST_TIME ? (u64)t : MOST_TIME;
}

/* The exact test decides. 0 passes, and nothing past MOST_TIME does. */
static u64 wide_root(const struct sides *s)
{
    u64 t = guess(s);
    while (!passes(s, t))
        t--;
    while (passes(s, t + 1))
        t++;
    return t;
}

/* No root here reaches 2^15. */
static u64 root(u64 square)
{
    u64 t = 0;
    for (u64 digit = 1u << 14; digit > 0; digit /= 2)
        if ((t + digit) * (t + digit) <= square)
            t += digit;
    return t;
}

static u64 shallow_time(u64 k, const u64 *s)
{
    u64 length = s[BT_LENGTH_AT];
    return root(length * length * 1000000000000 / (k * k * s[BT_SHALLOW_SLOPE_AT]));
}

/* T^10 P^5 s^4 1000 <= 252^10 (n L)^8 */
static u64 sheet_time(const u64 *s)
{
    const u64 c = 1016255020032; /* 252^5 */
    u64 nl = s[BT_SHEET_N_AT] * s[BT_LENGTH_AT], p = s[BT_SHEET_RAIN_AT], slope = s[BT_SHEET_SLOPE_AT];
    const u64 bottom[] = { p * p * p * p, 1000 * p, slope * slope * slope * slope };
    const u64 top[] = { c, c, nl * nl * nl, nl * nl * nl, nl * nl };
    const struct sides sides = { product(bottom, 3), product(top, 5), 5 };
    return wide_root(&sides);
}

/* T^6 149^6 r^4 s^3 <= (n L)^6 10^14 */
static u64 channel_time(const u64 *s)
{
    const u64 c = 10942526586601; /* 149^6 */
    u64 nl = s[BT_CHANNEL_N_AT] * s[BT_LENGTH_AT], r = s[BT_CHANNEL_RADIUS_AT], slope = s[BT_CHANNEL_SLOPE_AT];
    const u64 bottom[] = { c, r * r * r * r, slope * slope * slope };
    const u64 top[] = { 100000000000000, nl * nl, nl * nl, nl * nl };
    const struct sides sides = { product(bottom, 3), product(top, 4), 3 };
    return wide_root(&sides);
}

static u64 segment_time(const u64 *s)
{
    switch (s[BT_KIND_AT]) {
    case BT_SEGMENT_UNPAVED: return shallow_time(161345, s);
    case BT_SEGMENT_PAVED: return shallow_time(203282, s);
    case BT_SEGMENT_GIVEN: return 100 * s[BT_LENGTH_AT] / s[BT_GIVEN_VELOCITY_AT];
    case BT_SEGMENT_SHEET: return sheet_time(s);
    default: return channel_time(s);
    }
}

static u64 concentration_of(const u64 *record)
{
    u64 sum = 0;
    for (u64 i = 0; i < record[BT_SEGMENT_COUNT]; i++)
        sum += segment_time(record + BT_SEGMENTS + BT_SEGMENT_WIDTH * i);
    return sum < 360 ? 360 : sum;
}

static u64 peak_of(u64 step, u64 time)
{
    return 3 * time / 5 + step / 2;
}

/* ---- Checks 1 to 13, with 20 after 2 and 19 after 3 */

static struct refusal check_lengths(u64 inflow_len, u64 outflow_len, u64 storage_len)
{
    bool good = inflow_len == outflow_len && inflow_len == storage_len && 1 <= inflow_len && inflow_len <= BT_MOST_ROWS;
    return good ? PASSED : refused(1, 0);
}

static struct refusal check_step(const struct job *j)
{
    return j->step % 2 == 0 && 60 <= j->step && j->step <= 3600 ? PASSED : refused(2, 0);
}

static struct refusal check_rule(struct job *j)
{
    switch (j->rule) {
    case BT_RULE_TR55: j->sheet = 300; return PASSED;
    case BT_RULE_WINTR55: j->sheet = 100; return PASSED;
    default: return refused(20, 0);
    }
}

static struct refusal check_rain(const struct job *j)
{
    if (j->rain_len < 2 || j->rain_len > j->rows + 1 || j->rain[0] != 0)
        return refused(3, 0);
    for (size_t t = 1; t < j->rain_len; t++)
        if (j->rain[t] > 30000 || j->rain[t] < j->rain[t - 1])
            return refused(3, t);
    return PASSED;
}

/* After 3: no difference is below 0. */
static struct refusal check_rises(const struct job *j)
{
    for (size_t t = 1; t < j->rain_len; t++)
        if (j->rain[t] - j->rain[t - 1] > BT_MOST_RISE)
            return refused(19, t);
    return PASSED;
}

static struct refusal check_numbers(const struct job *j)
{
    return j->first <= BT_LAST_ROW_NUMBER - (j->rows - 1) ? PASSED : refused(4, 0);
}

static struct refusal check_count(struct job *j)
{
    j->count = j->subareas_len / BT_WIDTH;
    return j->subareas_len % BT_WIDTH == 0 && 1 <= j->count && j->count <= BT_MOST_SUBAREAS ? PASSED : refused(5, 0);
}

static struct refusal check_times(u64 step, const u64 *times, size_t count)
{
    for (size_t i = 0; i < count; i++)
        if (times[i] > 36000)
            return refused(9, i + 1);
    for (size_t i = 0; i < count; i++)
        if (step > peak_of(step, times[i]))
            return refused(10, i + 1);
    for (size_t i = 0; i < count; i++)
        if (5 * peak_of(step, times[i]) > MOST_WEIGHTS * step)
            return refused(11, i + 1);
    return PASSED;
}

/* 6 to 11. */
static struct refusal check_list(struct job *j)
{
    for (size_t i = 0; i < j->count; i++)
        if (!patches_good(j->subareas + BT_WIDTH * i))
            return refused(6, i + 1);
    for (size_t i = 0; i < j->count; i++)
        if (!segments_good(j->subareas + BT_WIDTH * i, j->sheet))
            return refused(7, i + 1);
    for (size_t i = 0; i < j->count; i++) {
        j->area += area_of(j->subareas + BT_WIDTH * i);
        j->times[i] = concentration_of(j->subareas + BT_WIDTH * i);
    }
    return j->area > MOST_AREA ? refused(8, 0) : check_times(j->step, j->times, j->count);
}

static bool pond_row_good(const u64 *row, bool first)
{
    if (row[0] > 1000000 || row[1] > 1000000000000 || row[2] > 10000000)
        return false;
    if (first)
        return row[1] == 0 && row[2] == 0;
    return row[0] > row[-3] && row[1] > row[-2] && row[2] >= row[-1];
}

static struct refusal check_pond(const struct job *j)
{
    size_t rows = j->pond_len / BT_POND_WIDTH;
    if (j->pond_len % BT_POND_WIDTH != 0 || rows < 2 || rows > BT_MOST_POND_ROWS)
        return refused(12, 0);
    for (size_t i = 0; i < rows; i++)
        if (!pond_row_good(j->pond + BT_POND_WIDTH * i, i == 0))
            return refused(12, i + 1);
    for (size_t i = 0; i < rows; i++)
        if (j->pond[BT_POND_WIDTH * i + 1] < j->step / 2 * j->pond[BT_POND_WIDTH * i + 2])
            return refused(13, i + 1);
    return PASSED;
}

/* 1 to 5, with 20 after 2 and 19 after 3. */
static struct refusal check_setup(struct job *j, u64 inflow_len, u64 outflow_len, u64 storage_len)
{
    struct refusal r = check_lengths(inflow_len, outflow_len, storage_len);
    if (r.number == 0)
        r = check_step(j);
    if (r.number == 0)
        r = check_rule(j);
    if (r.number == 0)
        r = check_rain(j);
    if (r.number == 0)
        r = check_rises(j);
    if (r.number == 0)
        r = check_numbers(j);
    return r.number == 0 ? check_count(j) : r;
}

/* ---- Parts */

static const u64 SHAPE[33][2] = {
    { 0, 0 },    { 1, 30 },    { 2, 100 },  { 3, 190 },  { 4, 310 },  { 5, 470 },  { 6, 660 },  { 7, 820 },
    { 8, 930 },  { 9, 990 },   { 10, 1000 }, { 11, 990 }, { 12, 930 }, { 13, 860 }, { 14, 780 }, { 15, 680 },
    { 16, 560 }, { 17, 460 },  { 18, 390 }, { 19, 330 }, { 20, 280 }, { 22, 207 }, { 24, 147 }, { 26, 107 },
    { 28, 77 },  { 30, 55 },   { 32, 40 },  { 34, 29 },  { 36, 21 },  { 38, 15 },  { 40, 11 },  { 45, 5 },
    { 50, 0 },
};

/* Weight j stands at j - 1. Gives their total. */
static u64 fill_weights(u64 peak, u64 step, size_t count, uint32_t *weights)
{
    u64 total = 0;
    int b = 1;
    for (size_t j = 1; j <= count; j++) {
        u64 t = 10 * j * step;
        while (SHAPE[b][0] * peak < t)
            b++;
        u64 ta = SHAPE[b - 1][0] * peak, tb = SHAPE[b][0] * peak;
        u64 weight = 1000 * (SHAPE[b - 1][1] * (tb - t) + SHAPE[b][1] * (t - ta)) / (tb - ta);
        weights[j - 1] = (uint32_t)weight;
        total += weight;
    }
    return total;
}

/* The runoff of rain entries 1 to the last row's; from the end of the rain on, the last one's. Entry t at t - 1. */
static void fill_depths(const struct job *j, u64 tenths, uint32_t *depths)
{
    u64 m = 8000000 - 8000 * tenths;
    for (size_t t = 1; t < j->rain_len; t++) {
        u64 cp = tenths * j->rain[t], n = cp + 2000 * tenths;
        depths[t - 1] = n <= 2000000 ? 0 : (uint32_t)(1000 * (n - 2000000) * (n - 2000000) / (tenths * (cp + m)));
    }
    for (size_t t = j->rain_len; t <= j->rows; t++)
        depths[t - 1] = depths[j->rain_len - 2];
}

/* The first 'count' weights, each times the depth as many places before row k's own. */
static u64 dot(const uint32_t *weights, const uint32_t *depths, size_t k, size_t count)
{
    u64 sum = 0;
    for (size_t i = 0; i < count; i++)
        sum += (u64)weights[i] * depths[k - 1 - i];
    return sum;
}

/* Adds a record's part of each row. */
static void add_parts(const struct job *j, const u64 *record, u64 time, u64 *rows)
{
    uint32_t weights[MOST_WEIGHTS], depths[BT_MOST_ROWS];
    u64 area = area_of(record), peak = peak_of(j->step, time), before = 0;
    size_t count = 5 * peak / j->step;
    u64 total = fill_weights(peak, j->step, count, weights);
    fill_depths(j, tenths_of(record, area), depths);
    for (size_t k = 1; k <= j->rows; k++) {
        u64 depth = dot(weights, depths, k, k < count ? k : count) / total, through = 363 * area * depth / 10000;
        rows[k - 1] += through - before;
        before = through;
    }
}

/* ---- The pond */

struct pond {
    const u64 *table;
    size_t rows;
    u64 half, sums[BT_MOST_POND_ROWS];
};

static void open_pond(struct pond *p, const struct job *j)
{
    p->table = j->pond;
    p->rows = j->pond_len / BT_POND_WIDTH;
    p->half = j->step / 2;
    for (size_t i = 0; i < p->rows; i++)
        p->sums[i] = j->pond[BT_POND_WIDTH * i + 1] + p->half * j->pond[BT_POND_WIDTH * i + 2];
}

static u64 pond_top(const struct pond *p)
{
    return p->sums[p->rows - 1];
}

/* The row above x, from 1 on. */
static size_t row_above(const struct pond *p, u64 x)
{
    size_t i = 1;
    while (p->sums[i] < x)
        i++;
    return i;
}

static u64 line(const struct pond *p, size_t i, size_t column, u64 x)
{
    const u64 *b = p->table + BT_POND_WIDTH * i + column;
    u64 y = b[-BT_POND_WIDTH], a = p->sums[i - 1];
    return y + (b[0] - y) * (x - a) / (p->sums[i] - a);
}

static u64 stage_at(const struct pond *p, u64 x)
{
    return line(p, row_above(p, x), 0, x);
}

/* Rows as they are to stand, before anything is written. */
struct rows {
    u64 inflow[BT_MOST_ROWS], outflow[BT_MOST_ROWS], storage[BT_MOST_ROWS];
};

struct state {
    u64 outflow, storage;
};

/* Routes 'count' rows from 'from' on, from 0, and from the state before them. */
static struct refusal route(const struct pond *p, struct state s, size_t from, size_t count, struct rows *rows)
{
    for (size_t k = from; k < count; k++) {
        u64 x = s.storage - p->half * s.outflow + rows->inflow[k];
        if (x > pond_top(p))
            return refused(14, k + 1);
        s.outflow = line(p, row_above(p, x), 2, x);
        s.storage = x - p->half * s.outflow;
        rows->outflow[k] = s.outflow;
        rows->storage[k] = s.storage;
    }
    return PASSED;
}

/* Writes the rows from 'from' on. */
static void write_rows(const struct rows *rows, size_t from, size_t count, u64 *inflow, u64 *outflow, u64 *storage)
{
    size_t bytes = (count - from) * sizeof(u64);
    memcpy(inflow + from, rows->inflow + from, bytes);
    memcpy(outflow + from, rows->outflow + from, bytes);
    memcpy(storage + from, rows->storage + from, bytes);
}

/* A row's stage rises with its X, so the greatest stage is that of the greatest X. */
static void figures(const struct pond *p, const u64 *inflow, const u64 *outflow, const u64 *storage, size_t rows,
                    u64 *answer)
{
    u64 total = 0, flows = 0, peak = 0, row = 1, most = 0;
    for (size_t k = 0; k < rows; k++) {
        u64 x = storage[k] + p->half * outflow[k];
        total += inflow[k];
        flows += outflow[k];
        if (outflow[k] > peak) {
            peak = outflow[k];
            row = k + 1;
        }
        most = x > most ? x : most;
    }
    answer[BT_INFLOW] = total;
    answer[BT_RELEASED] = p->half * (2 * flows - outflow[rows - 1]);
    answer[BT_STORAGE] = storage[rows - 1];
    answer[BT_PEAK] = peak;
    answer[BT_ROW] = row;
    answer[BT_STAGE] = stage_at(p, most);
}

static struct refusal check_standing(const struct pond *p, const u64 *outflow, const u64 *storage, size_t rows)
{
    u64 discharge = p->table[BT_POND_WIDTH * p->rows - 1], top = pond_top(p);
    for (size_t k = 0; k < rows; k++) {
        u64 passed = p->half * outflow[k];
        if (outflow[k] > discharge || storage[k] < passed || storage[k] > top - passed)
            return refused(17, k + 1);
    }
    return PASSED;
}

/* ---- The study */

static u64 refuse(struct refusal r, u64 *answer, size_t len)
{
    memset(answer, 0, len * sizeof *answer);
    answer[BT_REFUSAL] = r.number;
    answer[BT_PLACE] = r.place;
    return r.number;
}

uint64_t plain_study(uint64_t step, uint64_t first, uint64_t rule, const uint64_t *rain, size_t rain_len,
                     const uint64_t *subareas, size_t subareas_len, const uint64_t *pond, size_t pond_len,
                     uint64_t *inflow, size_t inflow_len, uint64_t *outflow, size_t outflow_len, uint64_t *storage,
                     size_t storage_len, uint64_t answer[BT_ANSWER_LENGTH])
{
    struct job j = { step, first, rule, rain, subareas, pond, rain_len, subareas_len, pond_len, .rows = inflow_len };
    struct pond p;
    struct rows rows;
    struct refusal r = check_setup(&j, inflow_len, outflow_len, storage_len);
    if (r.number == 0)
        r = check_list(&j);
    if (r.number == 0)
        r = check_pond(&j);
    if (r.number == 0) {
        memset(rows.inflow, 0, j.rows * sizeof *rows.inflow);
        for (size_t i = 0; i < j.count; i++)
            add_parts(&j, subareas + BT_WIDTH * i, j.times[i], rows.inflow);
        open_pond(&p, &j);
        r = route(&p, (struct state){ 0, 0 }, 0, j.rows, &rows);
    }
    refuse(r, answer, BT_ANSWER_LENGTH);
    if (r.number != 0)
        return r.number;
    write_rows(&rows, 0, j.rows, inflow, outflow, storage);
    figures(&p, inflow, outflow, storage, j.rows, answer);
    for (size_t i = 0; i < j.count; i++)
        add_classes(subareas + BT_WIDTH * i, answer);
    return 0;
}

/* ---- The edit */

/* The new record, its place from 1, and its Tc, once it is within limits. */
struct change {
    u64 place;
    const u64 *fresh;
    u64 time;
};

static const u64 *old_record(const struct job *j, const struct change *c)
{
    return j->subareas + BT_WIDTH * (c->place - 1);
}

/* 6 to 11 on the altered list, after the list itself: only the new record, and all areas together, can still fail. */
static struct refusal check_altered(const struct job *j, struct change *c)
{
    if (!patches_good(c->fresh))
        return refused(6, c->place);
    if (!segments_good(c->fresh, j->sheet))
        return refused(7, c->place);
    if (j->area - area_of(old_record(j, c)) + area_of(c->fresh) > MOST_AREA)
        return refused(8, 0);
    c->time = concentration_of(c->fresh);
    struct refusal r = check_times(j->step, &c->time, 1);
    return r.number == 0 ? PASSED : refused(r.number, c->place);
}

/* 1 to 5 with 20 after 2 and 19 after 3, 15, 6 to 11 twice, 12, 13. */
static struct refusal check_edit(struct job *j, u64 inflow_len, u64 outflow_len, u64 storage_len, struct change *c)
{
    struct refusal r = check_setup(j, inflow_len, outflow_len, storage_len);
    if (r.number == 0 && (c->place < 1 || c->place > j->count))
        r = refused(15, 0);
    if (r.number == 0)
        r = check_list(j);
    if (r.number == 0)
        r = check_altered(j, c);
    return r.number == 0 ? check_pond(j) : r;
}

static void altered_classes(const struct job *j, const struct change *c, u64 *answer)
{
    for (size_t i = 0; i < j->count; i++)
        add_classes(i == c->place - 1 ? c->fresh : j->subareas + BT_WIDTH * i, answer);
}

/* The rows as found, and their parts of the old record and of the new one. */
struct found {
    const u64 *inflow, *outflow, *storage;
    u64 old[BT_MOST_ROWS], new[BT_MOST_ROWS];
};

static struct refusal check_found(const struct job *j, const struct pond *p, const struct found *f)
{
    for (size_t k = 0; k < j->rows; k++)
        if (f->inflow[k] < f->old[k] || f->inflow[k] > MOST_INFLOW)
            return refused(16, k + 1);
    return check_standing(p, f->outflow, f->storage, j->rows);
}

/* Works the parts, looks at the rows as found, and routes from the first changed row, which goes to 'from': from 0, and
   the number of rows if there is none. */
static struct refusal work_edit(const struct job *j, const struct pond *p, const struct change *c, struct found *f,
                                size_t *from, struct rows *rows)
{
    memset(f->old, 0, j->rows * sizeof *f->old);
    memset(f->new, 0, j->rows * sizeof *f->new);
    add_parts(j, old_record(j, c), j->times[c->place - 1], f->old);
    struct refusal r = check_found(j, p, f);
    if (r.number != 0)
        return r;
    add_parts(j, c->fresh, c->time, f->new);
    for (*from = 0; *from < j->rows && f->old[*from] == f->new[*from];)
        ++*from;
    for (size_t k = *from; k < j->rows; k++)
        rows->inflow[k] = f->inflow[k] - f->old[k] + f->new[k];
    struct state before = { 0, 0 };
    if (*from > 0)
        before = (struct state){ f->outflow[*from - 1], f->storage[*from - 1] };
    return route(p, before, *from, j->rows, rows);
}

uint64_t plain_edit(uint64_t step, uint64_t first, uint64_t rule, const uint64_t *rain, size_t rain_len,
                    const uint64_t *subareas, size_t subareas_len, const uint64_t *pond, size_t pond_len,
                    uint64_t *inflow, size_t inflow_len, uint64_t *outflow, size_t outflow_len, uint64_t *storage,
                    size_t storage_len, uint64_t place, const uint64_t fresh[BT_WIDTH],
                    uint64_t answer[BT_EDIT_ANSWER_LENGTH], int64_t changes[BT_CHANGES_LENGTH])
{
    struct job j = { step, first, rule, rain, subareas, pond, rain_len, subareas_len, pond_len, .rows = inflow_len };
    struct pond p;
    struct change change = { place, fresh, 0 };
    struct rows rows;
    struct found found;
    size_t from = 0;
    u64 old[BT_ANSWER_LENGTH];
    found.inflow = inflow;
    found.outflow = outflow;
    found.storage = storage;
    struct refusal r = check_edit(&j, inflow_len, outflow_len, storage_len, &change);
    if (r.number == 0) {
        open_pond(&p, &j);
        r = work_edit(&j, &p, &change, &found, &from, &rows);
    }
    refuse(r, answer, BT_EDIT_ANSWER_LENGTH);
    changes[BT_PEAK_CHANGE] = changes[BT_RELEASED_CHANGE] = 0;
    if (r.number != 0)
        return r.number;
    figures(&p, inflow, outflow, storage, j.rows, old);
    write_rows(&rows, from, j.rows, inflow, outflow, storage);
    figures(&p, inflow, outflow, storage, j.rows, answer);
    altered_classes(&j, &change, answer);
    answer[BT_CHANGED] = from == j.rows ? 0 : from + 1;
    changes[BT_PEAK_CHANGE] = (int64_t)(answer[BT_PEAK] - old[BT_PEAK]);
    changes[BT_RELEASED_CHANGE] = (int64_t)(answer[BT_RELEASED] - old[BT_RELEASED]);
    return 0;
}

/* ---- The mark */

static struct refusal check_mark(const struct job *j, u64 outflow_len, u64 storage_len, u64 row)
{
    struct refusal r = check_lengths(j->rows, outflow_len, storage_len);
    if (r.number == 0)
        r = check_step(j);
    if (r.number == 0)
        r = check_numbers(j);
    if (r.number == 0)
        r = check_pond(j);
    return r.number == 0 && (row < 1 || row > j->rows) ? refused(18, 0) : r;
}

static bool is_peak(const u64 *outflow, size_t rows, u64 row)
{
    for (size_t k = 1; k <= rows; k++)
        if (k < row ? outflow[k - 1] >= outflow[row - 1] : outflow[k - 1] > outflow[row - 1])
            return false;
    return true;
}

uint64_t plain_mark(uint64_t step, uint64_t first, const uint64_t *pond, size_t pond_len, const uint64_t *inflow,
                    size_t inflow_len, const uint64_t *outflow, size_t outflow_len, const uint64_t *storage,
                    size_t storage_len, uint64_t row, uint64_t answer[BT_MARK_ANSWER_LENGTH],
                    double values[BT_VALUES_LENGTH])
{
    struct job j = { .step = step, .first = first, .pond = pond, .pond_len = pond_len, .rows = inflow_len };
    struct pond p;
    (void)inflow;
    memset(values, 0, BT_VALUES_LENGTH * sizeof *values);
    struct refusal r = check_mark(&j, outflow_len, storage_len, row);
    if (r.number == 0) {
        open_pond(&p, &j);
        r = check_standing(&p, outflow, storage, j.rows);
    }
    refuse(r, answer, BT_MARK_ANSWER_LENGTH);
    if (r.number != 0)
        return r.number;
    u64 flow = outflow[row - 1];
    if (flow != 0)
        answer[BT_KIND] = is_peak(outflow, j.rows, row) ? BT_KIND_PEAK : BT_KIND_OUTFLOW;
    if (answer[BT_KIND] == BT_KIND_PEAK)
        values[BT_MARK_STAGE] = (double)stage_at(&p, storage[row - 1] + p.half * flow);
    values[BT_MARK_OUTFLOW] = values[BT_POINT_OUTFLOW] = (double)flow;
    values[BT_POINT_ROW] = (double)(first + row - 1);
    values[BT_POINT_SECONDS] = (double)(row * step);
    return 0;
}
