/* The rules of document 01, section by section; each function has the rule's own words beside it. */
#include "rules.h"

#include <string.h>

#include "big.h"

/* Kinds of segments. */
enum { UNPAVED = 1, PAVED, GIVEN, SHEET, CHANNEL };

enum {
    MOST_RAIN = 30000,
    MOST_RISE = 4000,
    MOST_AREA = 200000,
    MOST_POND_ROWS = 64,
    KNOTS = 33
};

static const u64 LAST_ROW_NUMBER = 9007199254740991u;
static const u64 MOST_STAGE = 1000000u, MOST_STORAGE = 1000000000000u, MOST_DISCHARGE = 10000000u;

bool within(u64 x, u64 least, u64 most)
{
    return least <= x && x <= most;
}

/* ---- A subarea's record */

static const u64 *patch(const u64 *record, u64 i)
{
    return record + PATCHES_AT + PATCH_WIDTH * i;
}

static const u64 *segment(const u64 *record, u64 i)
{
    return record + SEGMENTS_AT + SEGMENT_WIDTH * i;
}

static u64 patch_count(const u64 *record)
{
    return record[0];
}

static u64 segment_count(const u64 *record)
{
    return record[SEGMENTS_AT - 1];
}

static u64 area_of(const u64 *record)
{
    u64 area = 0;
    for (u64 i = 0; i < patch_count(record); i++)
        area += patch(record, i)[2];
    return area;
}

/* ---- Curve numbers */

static const unsigned char COVER[22][4] = {
    { 68, 79, 86, 89 }, { 49, 69, 79, 84 }, { 39, 61, 74, 80 }, { 98, 98, 98, 98 }, { 98, 98, 98, 98 },
    { 83, 89, 92, 93 }, { 76, 85, 89, 91 }, { 72, 82, 87, 89 },                                  /* 1 to 8 surfaces */
    { 89, 92, 94, 95 }, { 81, 88, 91, 93 },                                                      /* 9, 10 districts */
    { 77, 85, 90, 92 }, { 61, 75, 83, 87 }, { 57, 72, 81, 86 }, { 54, 70, 80, 85 }, { 51, 68, 79, 84 },
    { 46, 65, 77, 82 },                                                                          /* 11 to 16 lots */
    { 48, 67, 77, 83 }, { 35, 56, 70, 77 }, { 30, 48, 65, 73 }, { 57, 73, 82, 86 }, { 43, 65, 76, 82 },
    { 32, 58, 72, 79 },                                                                          /* 17 to 22 rural */
};

/* The area-weighted mean in tenths, to the nearest, halves up: the tenth below the exact mean, and one more where what
   is left over is half a tenth or more. */
u64 reference_tenths(const u64 *record)
{
    u64 sum = 0, area = area_of(record);
    for (u64 i = 0; i < patch_count(record); i++) {
        const u64 *p = patch(record, i);
        sum += COVER[p[0] - 1][p[1] - 1] * p[2];
    }
    u64 below = 10 * sum / area, over = 10 * sum % area;
    return below + (2 * over >= area);
}

static int class_of(u64 cover)
{
    return cover <= 8 ? 0 : cover <= 10 ? 1 : cover <= 16 ? 2 : 3;
}

/* ---- Runoff depth */

/* Document 01's formula at C = c / 10: N and M ten times as large, which leaves the quotient as it is. */
u64 reference_runoff(u64 tenths, u64 rain)
{
    wide c = tenths, p = rain;
    wide n = c * p + 2000 * c - 2000000;
    wide m = c * p + 8000000 - 8000 * c;
    if (n <= 0)
        return 0;
    return (u64)(1000 * n * n / (c * m));
}

/* ---- Travel time */

/* Whether the square of t is at most L^2 10^12 / (K^2 s). */
static bool reaches(wide t, wide length, wide k, wide slope)
{
    return t * t * k * k * slope <= length * length * 1000000000000;
}

/* The largest whole t, made of binary digits from the greatest down. No time comes near 2^20. */
static u64 shallow(u64 length, u64 k, u64 slope)
{
    u64 t = 0;
    for (u64 digit = 1u << 20; digit > 0; digit /= 2)
        if (reaches(t + digit, length, k, slope))
            t += digit;
    return t;
}

/* Whether t to a power, times 'low', is at most 'high'. Once it is longer, it stays so. */
static bool power_reaches(u64 t, int power, struct big low, const struct big *high)
{
    while (power-- > 0 && low.len <= high->len)
        big_times(&low, t);
    return big_at_most(&low, high);
}

/* The largest whole t, made in the same way. No time comes to 2^23. */
static u64 root(int power, const struct big *low, const struct big *high)
{
    u64 t = 0;
    for (u64 digit = 1u << 22; digit > 0; digit /= 2)
        if (power_reaches(t + digit, power, *low, high))
            t += digit;
    return t;
}

/* T^10 P2^5 s^4 not above 25.2^10 (nL)^8, as exact fractions. P2 and n are thousandths, s ten-thousandths and 25.2 is
   252 tenths: the left side is over 10^31, the right one over 10^34. */
static u64 sheet(u64 length, u64 n, u64 rain, u64 slope)
{
    struct big low = BIG_ONE, high = BIG_ONE;
    big_times_power(&low, rain, 5);
    big_times_power(&low, slope, 4);
    big_times_power(&low, 10, 34 - 31);
    big_times_power(&high, 252, 10);
    big_times_power(&high, n * length, 8);
    return root(10, &low, &high);
}

/* T^6 1.49^6 r^4 s^3 not above (nL)^6. 1.49 and r are hundredths, s ten-thousandths and n is thousandths: the left side
   is over 10^32, the right one over 10^18. */
static u64 channel(u64 length, u64 n, u64 radius, u64 slope)
{
    struct big low = BIG_ONE, high = BIG_ONE;
    big_times_power(&low, 149, 6);
    big_times_power(&low, radius, 4);
    big_times_power(&low, slope, 3);
    big_times_power(&high, n * length, 6);
    big_times_power(&high, 10, 32 - 18);
    return root(6, &low, &high);
}

u64 reference_segment(const u64 *segment)
{
    u64 length = segment[1], third = segment[2], fourth = segment[3], fifth = segment[4];
    switch (segment[0]) {
    case UNPAVED: return shallow(length, 161345, third);
    case PAVED: return shallow(length, 203282, third);
    case GIVEN: return 100 * length / third;
    case SHEET: return sheet(length, third, fourth, fifth);
    default: return channel(length, third, fourth, fifth);
    }
}

u64 reference_concentration(const u64 *record)
{
    u64 sum = 0;
    for (u64 i = 0; i < segment_count(record); i++)
        sum += reference_segment(segment(record, i));
    return sum < 360 ? 360 : sum;
}

u64 reference_peak(u64 step, u64 concentration)
{
    u64 lag = 3 * concentration / 5;
    return lag + step / 2;
}

/* ---- Inflow rows */

/* Time in tenths of Tp, thousandths of the peak. */
static const int SHAPE[KNOTS][2] = {
    { 0, 0 },    { 1, 30 },    { 2, 100 },  { 3, 190 },  { 4, 310 },  { 5, 470 },  { 6, 660 },  { 7, 820 },
    { 8, 930 },  { 9, 990 },   { 10, 1000 }, { 11, 990 }, { 12, 930 }, { 13, 860 }, { 14, 780 }, { 15, 680 },
    { 16, 560 }, { 17, 460 },  { 18, 390 }, { 19, 330 }, { 20, 280 }, { 22, 207 }, { 24, 147 }, { 26, 107 },
    { 28, 77 },  { 30, 55 },   { 32, 40 },  { 34, 29 },  { 36, 21 },  { 38, 15 },  { 40, 11 },  { 45, 5 },
    { 50, 0 },
};

/* The time j D is 10 j D / Tp tenths of Tp. On the line from knot a to knot b the value is
   ya + (yb - ya) (10 j D / Tp - xa) / (xb - xa); both sides are brought over (xb - xa) Tp. */
u64 reference_weight(u64 peak, u64 step, u64 j)
{
    wide tp = peak, time = (wide)10 * j * step;
    int b = 1;
    while (b < KNOTS - 1 && SHAPE[b][0] * tp < time)
        b++;
    wide xa = SHAPE[b - 1][0], ya = SHAPE[b - 1][1], xb = SHAPE[b][0], yb = SHAPE[b][1];
    wide over = (xb - xa) * tp;
    return (u64)(1000 * (ya * over + (yb - ya) * (time - xa * tp)) / over);
}

u64 reference_volume(u64 area, u64 depth)
{
    return (u64)((wide)363 * area * depth / 10000);
}

/* One subarea's weights and runoffs. Weight j stands at j, the runoff of rain entry t at t. */
struct subarea {
    u64 area, weights, total, entries;
    u64 weight[MOST_WEIGHTS + 1], runoff[MOST_ROWS + 1];
};

static void work_weights(struct subarea *s, u64 peak, u64 step)
{
    s->weights = s->total = 0;
    for (u64 j = 1; j * step <= 5 * peak; j++) {
        s->weight[j] = reference_weight(peak, step, j);
        s->total += s->weight[j];
        s->weights = j;
    }
}

static void work_runoffs(struct subarea *s, u64 tenths, const struct lent *lent)
{
    s->entries = lent->rain_len - 1;
    for (u64 t = 0; t <= s->entries; t++)
        s->runoff[t] = reference_runoff(tenths, lent->rain[t]);
}

/* Q_t: 0 for t <= 0, the last from n on. */
static u64 runoff_at(const struct subarea *s, int64_t t)
{
    if (t <= 0)
        return 0;
    return s->runoff[(u64)t < s->entries ? (u64)t : s->entries];
}

static u64 depth_through(const struct subarea *s, u64 k)
{
    wide sum = 0;
    for (u64 j = 1; j <= s->weights; j++)
        sum += (wide)s->weight[j] * runoff_at(s, (int64_t)k + 1 - (int64_t)j);
    return (u64)(sum / s->total);
}

static void add_parts(const struct subarea *s, u64 *rows, u64 m)
{
    u64 before = 0;
    for (u64 k = 1; k <= m; k++) {
        u64 through = reference_volume(s->area, depth_through(s, k));
        rows[k - 1] += through - before;
        before = through;
    }
}

void add_record(const struct lent *lent, const u64 *record, u64 *rows)
{
    static struct subarea s;
    s.area = area_of(record);
    work_weights(&s, reference_peak(lent->step, reference_concentration(record)), lent->step);
    work_runoffs(&s, reference_tenths(record), lent);
    add_parts(&s, rows, lent->inflow_len);
}

static void work_inflow(const struct lent *lent, u64 *rows)
{
    memset(rows, 0, lent->inflow_len * sizeof *rows);
    for (size_t at = 0; at < lent->subareas_len; at += WIDTH)
        add_record(lent, lent->subareas + at, rows);
}

/* ---- Pond rows. Row i of the table (from 0) has stage, storage, discharge. */

wide sum_of(const u64 *row, u64 half)
{
    return (wide)row[1] + (wide)half * row[2];
}

/* The straight line from (xa, ya) to (xb, yb) at x, down. ya <= yb. */
static u64 line(wide xa, wide ya, wide xb, wide yb, wide x)
{
    return (u64)(ya + (yb - ya) * (x - xa) / (xb - xa));
}

/* A column of the table at x, which is not above the last X_i. */
static u64 column_at(const u64 *pond, u64 half, int column, wide x)
{
    const u64 *b = pond + 3;
    while (sum_of(b, half) < x)
        b += 3;
    const u64 *a = b - 3;
    return line(sum_of(a, half), a[column], sum_of(b, half), b[column], x);
}

u64 stage_at(const u64 *pond, u64 half, wide x)
{
    return column_at(pond, half, 0, x);
}

int reference_step(const u64 *pond, size_t rows, u64 half, u64 inflow, struct state *state)
{
    wide x = (wide)state->storage - (wide)half * state->outflow + inflow;
    if (x > sum_of(pond + 3 * (rows - 1), half))
        return 0;
    state->outflow = column_at(pond, half, 2, x);
    state->storage = (u64)(x - (wide)half * state->outflow);
    state->stage = stage_at(pond, half, x);
    return 1;
}

/* ---- Refusals. Each check gives its number and the first place, or PASSED. */

const struct refusal PASSED = { 0, 0 };

struct refusal refuse(bool when, u64 number, u64 place)
{
    return when ? (struct refusal){ number, place } : PASSED;
}

struct refusal check_rows(const struct lent *s)
{
    u64 m = s->inflow_len;
    return refuse(s->outflow_len != m || s->storage_len != m || !within(m, 1, MOST_ROWS), 1, 0);
}

struct refusal check_step(const struct lent *s)
{
    return refuse(s->step % 2 != 0 || !within(s->step, 60, 3600), 2, 0);
}

/* 1: sheet flow to 300 ft. 2: to 100 ft. There is no other. */
static struct refusal check_rule(const struct lent *s)
{
    return refuse(s->rule != 1 && s->rule != 2, 20, 0);
}

static struct refusal check_rain(const struct lent *s)
{
    if (!within(s->rain_len, 2, s->inflow_len + 1) || s->rain[0] != 0)
        return refuse(true, 3, 0);
    for (size_t t = 1; t < s->rain_len; t++)
        if (s->rain[t] > MOST_RAIN || s->rain[t] < s->rain[t - 1])
            return refuse(true, 3, t);
    return PASSED;
}

/* A larger rise between neighbours is charged to the later entry. */
static struct refusal check_rises(const struct lent *s)
{
    for (size_t t = 1; t < s->rain_len; t++)
        if ((wide)s->rain[t] - s->rain[t - 1] > MOST_RISE)
            return refuse(true, 19, t);
    return PASSED;
}

struct refusal check_last_number(const struct lent *s)
{
    return refuse((wide)s->first + s->inflow_len - 1 > LAST_ROW_NUMBER, 4, 0);
}

static struct refusal check_count(const struct lent *s)
{
    return refuse(s->subareas_len % WIDTH != 0 || !within(s->subareas_len / WIDTH, 1, MOST_SUBAREAS), 5, 0);
}

/* The first subarea that a test calls bad, from 1. */
static struct refusal each_subarea(const struct lent *s, u64 number, bool (*bad)(const struct lent *, const u64 *))
{
    for (size_t i = 0; i < s->subareas_len / WIDTH; i++)
        if (bad(s, s->subareas + WIDTH * i))
            return refuse(true, number, i + 1);
    return PASSED;
}

static bool bad_patches(const struct lent *s, const u64 *record)
{
    (void)s;
    if (!within(patch_count(record), 1, MOST_PATCHES))
        return true;
    for (u64 i = 0; i < patch_count(record); i++) {
        const u64 *p = patch(record, i);
        if (!within(p[0], 1, 22) || !within(p[1], 1, 4) || !within(p[2], 1, MOST_AREA))
            return true;
    }
    return false;
}

/* The most that each number after the kind may be, but for a sheet's length by rule 2; the least is 1. Those past a
   kind's own are spare. */
static const u64 MOST_OF_SEGMENT[][SEGMENT_WIDTH - 1] = {
    [UNPAVED] = { 4000, 10000 },             /* length, slope */
    [PAVED] = { 4000, 10000 },               /* length, slope */
    [GIVEN] = { 4000, 10000 },               /* length, velocity */
    [SHEET] = { 300, 999, 30000, 10000 },    /* length by rule 1, n, 2-year rain, slope */
    [CHANNEL] = { 4000, 999, 10000, 10000 }, /* length, n, hydraulic radius, slope */
};

/* A sheet segment that does not stand first, or is longer than 100 ft where the study names rule 2. */
static bool bad_sheet(u64 rule, const u64 *own, bool first)
{
    return !first || (rule == 2 && own[1] > 100);
}

static bool bad_segment(u64 rule, const u64 *own, bool first)
{
    if (!within(own[0], UNPAVED, CHANNEL) || (own[0] == SHEET && bad_sheet(rule, own, first)))
        return true;
    const u64 *most = MOST_OF_SEGMENT[own[0]];
    for (int i = 0; i < SEGMENT_WIDTH - 1 && most[i] != 0; i++)
        if (!within(own[1 + i], 1, most[i]))
            return true;
    return false;
}

static bool bad_segments(const struct lent *s, const u64 *record)
{
    if (!within(segment_count(record), 1, MOST_SEGMENTS))
        return true;
    for (u64 i = 0; i < segment_count(record); i++)
        if (bad_segment(s->rule, segment(record, i), i == 0))
            return true;
    return false;
}

static bool bad_concentration(const struct lent *s, const u64 *record)
{
    (void)s;
    return reference_concentration(record) > 36000;
}

static bool step_above_peak(const struct lent *s, const u64 *record)
{
    return s->step > reference_peak(s->step, reference_concentration(record));
}

static bool too_many_weights(const struct lent *s, const u64 *record)
{
    return 5 * reference_peak(s->step, reference_concentration(record)) > 512 * s->step;
}

static struct refusal check_patches(const struct lent *s)
{
    return each_subarea(s, 6, bad_patches);
}

static struct refusal check_segments(const struct lent *s)
{
    return each_subarea(s, 7, bad_segments);
}

static struct refusal check_total_area(const struct lent *s)
{
    u64 total = 0;
    for (size_t at = 0; at < s->subareas_len; at += WIDTH)
        total += area_of(s->subareas + at);
    return refuse(total > MOST_AREA, 8, 0);
}

static struct refusal check_concentration(const struct lent *s)
{
    return each_subarea(s, 9, bad_concentration);
}

static struct refusal check_step_above_peak(const struct lent *s)
{
    return each_subarea(s, 10, step_above_peak);
}

static struct refusal check_weights(const struct lent *s)
{
    return each_subarea(s, 11, too_many_weights);
}

/* The first storage and discharge are 0; then stage and storage rise strictly and discharge never falls. */
static bool bad_pond_row(const u64 *row, bool first)
{
    if (row[0] > MOST_STAGE || row[1] > MOST_STORAGE || row[2] > MOST_DISCHARGE)
        return true;
    if (first)
        return row[1] != 0 || row[2] != 0;
    const u64 *before = row - 3;
    return row[0] <= before[0] || row[1] <= before[1] || row[2] < before[2];
}

static struct refusal check_pond(const struct lent *s)
{
    if (s->pond_len % 3 != 0 || !within(s->pond_len / 3, 2, MOST_POND_ROWS))
        return refuse(true, 12, 0);
    for (size_t i = 0; i < s->pond_len / 3; i++)
        if (bad_pond_row(s->pond + 3 * i, i == 0))
            return refuse(true, 12, i + 1);
    return PASSED;
}

static struct refusal check_pond_storage(const struct lent *s)
{
    for (size_t i = 0; i < s->pond_len / 3; i++) {
        const u64 *row = s->pond + 3 * i;
        if (row[1] < s->step / 2 * row[2])
            return refuse(true, 13, i + 1);
    }
    return PASSED;
}

struct refusal first_of(check *const *checks, size_t count, const struct lent *s)
{
    for (size_t i = 0; i < count; i++) {
        struct refusal r = checks[i](s);
        if (r.number != 0)
            return r;
    }
    return PASSED;
}

struct refusal run_checks(const struct lent *s)
{
    static check *const checks[] = { check_rows,  check_step,        check_rule, check_rain,
                                     check_rises, check_last_number, check_count };
    return first_of(checks, 7, s);
}

struct refusal list_checks(const struct lent *s)
{
    static check *const checks[] = { check_patches,       check_segments,        check_total_area,
                                     check_concentration, check_step_above_peak, check_weights };
    return first_of(checks, 6, s);
}

struct refusal pond_checks(const struct lent *s)
{
    static check *const checks[] = { check_pond, check_pond_storage };
    return first_of(checks, 2, s);
}

/* ---- The study */

struct refusal route_from(const struct lent *s, u64 first, struct rows *rows)
{
    struct state state = { 0, 0, 0 };
    if (first > 1)
        state = rows->after[first - 2];
    for (u64 k = first; k <= s->inflow_len; k++) {
        if (!reference_step(s->pond, s->pond_len / 3, s->step / 2, rows->inflow[k - 1], &state))
            return refuse(true, 14, k);
        rows->after[k - 1] = state;
    }
    return PASSED;
}

void row_figures(const struct rows *rows, u64 m, u64 half, u64 *answer)
{
    u64 old = 0;
    answer[6] = 1;
    for (u64 k = 1; k <= m; k++) {
        const struct state *now = &rows->after[k - 1];
        answer[2] += rows->inflow[k - 1];
        answer[3] += half * (old + now->outflow);
        answer[4] = now->storage;
        if (now->outflow > answer[5]) {
            answer[5] = now->outflow;
            answer[6] = k;
        }
        if (now->stage > answer[7])
            answer[7] = now->stage;
        old = now->outflow;
    }
}

void class_areas(const struct lent *s, u64 *answer)
{
    for (size_t at = 0; at < s->subareas_len; at += WIDTH) {
        const u64 *record = s->subareas + at;
        for (u64 i = 0; i < patch_count(record); i++)
            answer[8 + class_of(patch(record, i)[0])] += patch(record, i)[2];
    }
}

void write_rows(const struct rows *rows, u64 m, u64 *inflow, u64 *outflow, u64 *storage)
{
    for (u64 k = 0; k < m; k++) {
        inflow[k] = rows->inflow[k];
        outflow[k] = rows->after[k].outflow;
        storage[k] = rows->after[k].storage;
    }
}

u64 reference_study(u64 step, u64 first, u64 rule, const u64 *rain, size_t rain_len, const u64 *subareas,
                    size_t subareas_len, const u64 *pond, size_t pond_len, u64 *inflow, size_t inflow_len, u64 *outflow,
                    size_t outflow_len, u64 *storage, size_t storage_len, u64 *answer)
{
    static struct rows rows;
    static check *const checks[] = { run_checks, list_checks, pond_checks };
    struct lent s = { step,         first,    rule,       rain,        subareas,   pond, rain_len,
                      subareas_len, pond_len, inflow_len, outflow_len, storage_len };
    memset(answer, 0, 12 * sizeof *answer);
    struct refusal r = first_of(checks, 3, &s);
    if (r.number == 0) {
        work_inflow(&s, rows.inflow);
        r = route_from(&s, 1, &rows);
    }
    if (r.number == 0) {
        row_figures(&rows, inflow_len, step / 2, answer);
        class_areas(&s, answer);
        write_rows(&rows, inflow_len, inflow, outflow, storage);
    }
    answer[0] = r.number;
    answer[1] = r.place;
    return r.number;
}
