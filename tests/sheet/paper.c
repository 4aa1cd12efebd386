#include "paper.h"

#include <inttypes.h>
#include <stdarg.h>
#include <stdio.h>
#include <stdlib.h>

#include "rules.h"

/* ---- Text */

struct sink {
    char *at;
    size_t room;
};

static void put(struct sink *to, const char *form, ...)
{
    va_list words;
    va_start(words, form);
    int len = vsnprintf(to->at, to->room, form, words);
    va_end(words);
    if (len < 0 || (size_t)len >= to->room) {
        fprintf(stderr, "sheet: no room for a sheet\n");
        exit(2);
    }
    to->at += len;
    to->room -= (size_t)len;
}

enum { PIECE = 48 };

/* A number of decimals: units of 10 to the power of 'places'. */
static const char *decimal(char *piece, u64 n, int places)
{
    u64 unit = 1;
    for (int i = 0; i < places; i++)
        unit *= 10;
    if (places == 0)
        snprintf(piece, PIECE, "%" PRIu64, n);
    else
        snprintf(piece, PIECE, "%" PRIu64 ".%0*" PRIu64, n / unit, places, n % unit);
    return piece;
}

/* In a column, to the right. */
static void column(struct sink *to, int width, u64 n, int places)
{
    char piece[PIECE];
    put(to, "%*s", width, decimal(piece, n, places));
}

static void clock_time(struct sink *to, int width, u64 seconds)
{
    char piece[PIECE];
    snprintf(piece, sizeof piece, "%" PRIu64 ":%02d:%02d", seconds / 3600, (int)(seconds / 60 % 60),
             (int)(seconds % 60));
    put(to, "%*s", width, piece);
}

/* ---- The site */

static const char *const SHEET_RULES[] = {
    [BT_RULE_TR55] = "sheet flow to 300 ft (TR-55, 1986)",
    [BT_RULE_WINTR55] = "sheet flow to 100 ft (WinTR-55; NEH 630, chapter 15)",
};

static void heading(struct sink *to, const struct site *s)
{
    put(to, "DETENTION POND STUDY\n\nStep          %" PRIu64 " s = ", s->step);
    clock_time(to, 0, s->step);
    put(to, " (h:mm:ss)\nFirst row     %" PRIu64 "\nSheet rule    %s\nRows          %zu\nRain total    ", s->first,
        SHEET_RULES[s->rule], s->inflow);
    column(to, 0, s->rain.at[s->rain.len - 1], 3);
    put(to, " in\nRain entries  %zu\n", s->rain.len);
}

static u64 record_area(const u64 *record)
{
    u64 area = 0;
    for (u64 j = 0; j < record[BT_PATCH_COUNT]; j++)
        area += record[BT_PATCHES + BT_PATCH_WIDTH * j + 2];
    return area;
}

/* Weights are as many as steps lie in five times Tp. */
static void subareas(struct sink *to, const struct site *s)
{
    put(to, "\nSubarea    Area, ac  Curve number   Tc, s   Tp, s  Weights\n");
    for (size_t i = 0; i < subarea_count(s); i++) {
        const u64 *record = s->subareas.at + BT_WIDTH * i;
        u64 time = reference_concentration(record), peak = reference_peak(s->step, time);
        put(to, "%7zu ", i + 1);
        column(to, 11, record_area(record), 2);
        put(to, " ");
        column(to, 13, reference_tenths(record), 1);
        put(to, " %7" PRIu64 " %7" PRIu64 " %8" PRIu64 "\n", time, peak, 5 * peak / s->step);
    }
}

/* A patch's own curve number is that of a record that has no other. */
static u64 patch_tenths(const u64 *patch)
{
    u64 alone[BT_WIDTH] = { [BT_PATCH_COUNT] = 1 };
    for (size_t i = 0; i < BT_PATCH_WIDTH; i++)
        alone[BT_PATCHES + i] = patch[i];
    return reference_tenths(alone);
}

static void patches(struct sink *to, const struct site *s)
{
    put(to, "\nSubarea  Cover  Soil    Area, ac  Curve number\n");
    for (size_t i = 0; i < subarea_count(s); i++) {
        const u64 *record = s->subareas.at + BT_WIDTH * i;
        for (u64 j = 0; j < record[BT_PATCH_COUNT]; j++) {
            const u64 *patch = record + BT_PATCHES + BT_PATCH_WIDTH * j;
            put(to, "%7zu %6" PRIu64 " %5c ", i + 1, patch[0], "ABCD"[patch[1] - 1]);
            column(to, 11, patch[2], 2);
            put(to, " ");
            column(to, 13, patch_tenths(patch), 1);
            put(to, "\n");
        }
    }
}

enum { KINDS = BT_SEGMENT_CHANNEL + 1 };

/* A column of the segments, and by the kind the place of its number; 0 where a kind has none. */
static const struct {
    int width, places;
    size_t at[KINDS];
} COLUMNS[] = {
    { 7, 3, { [BT_SEGMENT_SHEET] = BT_SHEET_N_AT, [BT_SEGMENT_CHANNEL] = BT_CHANNEL_N_AT } },
    { 8, 3, { [BT_SEGMENT_SHEET] = BT_SHEET_RAIN_AT } },
    { 7, 2, { [BT_SEGMENT_CHANNEL] = BT_CHANNEL_RADIUS_AT } },
    { 14, 4, { [BT_SEGMENT_UNPAVED] = BT_SHALLOW_SLOPE_AT, [BT_SEGMENT_PAVED] = BT_SHALLOW_SLOPE_AT,
               [BT_SEGMENT_SHEET] = BT_SHEET_SLOPE_AT, [BT_SEGMENT_CHANNEL] = BT_CHANNEL_SLOPE_AT } },
    { 16, 2, { [BT_SEGMENT_GIVEN] = BT_GIVEN_VELOCITY_AT } },
};

static void segment(struct sink *to, size_t number, const u64 *own)
{
    static const char *const words[KINDS] = { NULL, "unpaved", "paved", "given", "sheet", "channel" };
    u64 kind = own[BT_KIND_AT];
    put(to, "%7zu %9s %11" PRIu64, number, words[kind], own[BT_LENGTH_AT]);
    for (size_t i = 0; i < sizeof COLUMNS / sizeof *COLUMNS; i++)
        if (COLUMNS[i].at[kind] != 0)
            column(to, COLUMNS[i].width, own[COLUMNS[i].at[kind]], COLUMNS[i].places);
        else
            put(to, "%*s", COLUMNS[i].width, "");
    put(to, " %8" PRIu64 "\n", reference_segment(own));
}

static void segments(struct sink *to, const struct site *s)
{
    put(to, "\nSubarea      Kind  Length, ft      n  P2, in  r, ft  Slope, ft/ft  Velocity, ft/s  Time, s\n");
    for (size_t i = 0; i < subarea_count(s); i++) {
        const u64 *record = s->subareas.at + BT_WIDTH * i;
        for (u64 j = 0; j < record[BT_SEGMENT_COUNT]; j++)
            segment(to, i + 1, record + BT_SEGMENTS + BT_SEGMENT_WIDTH * j);
    }
}

static void table(struct sink *to, const struct site *s)
{
    put(to, "\n       Stage, ft      Storage, cf  Discharge, cfs\n");
    for (size_t i = 0; i < pond_rows(s); i++) {
        const u64 *row = s->pond.at + BT_POND_WIDTH * i;
        column(to, 16, row[0], 3);
        column(to, 17, row[1], 3);
        column(to, 16, row[2], 3);
        put(to, "\n");
    }
}

/* ---- The answer */

/* Row k is numbered first + k - 1, and ends k steps after the start. */
static void rows(struct sink *to, const struct site *s, const struct columns *c)
{
    u64 half = s->step / 2;
    put(to, "\n             Row     h:mm:ss      Inflow, cf  Outflow, cfs      Storage, cf  Stage, ft\n");
    for (u64 k = 1; k <= s->inflow; k++) {
        wide x = c->storage[k - 1] + (wide)half * c->outflow[k - 1];
        put(to, "%16" PRIu64 " ", s->first + k - 1);
        clock_time(to, 11, k * s->step);
        column(to, 16, c->inflow[k - 1], 3);
        column(to, 14, c->outflow[k - 1], 3);
        column(to, 17, c->storage[k - 1], 3);
        column(to, 11, stage_at(s->pond.at, half, x), 3);
        put(to, "\n");
    }
}

static void figure(struct sink *to, const char *name, u64 n, int places, const char *unit)
{
    put(to, "%-15s", name);
    column(to, 16, n, places);
    put(to, " %s", unit);
}

static void figures(struct sink *to, const struct site *s, const u64 *answer)
{
    put(to, "\n");
    figure(to, "Total inflow", answer[BT_INFLOW], 3, "cf\n");
    figure(to, "Total released", answer[BT_RELEASED], 3, "cf\n");
    figure(to, "Last storage", answer[BT_STORAGE], 3, "cf\n");
    figure(to, "Peak outflow", answer[BT_PEAK], 3, "cfs");
    put(to, " in row %" PRIu64 "\n", s->first + answer[BT_ROW] - 1);
    figure(to, "Greatest stage", answer[BT_STAGE], 3, "ft\n");
    figure(to, "Surfaces", answer[BT_SURFACES], 2, "ac\n");
    figure(to, "Districts", answer[BT_DISTRICTS], 2, "ac\n");
    figure(to, "Lots", answer[BT_LOTS], 2, "ac\n");
    figure(to, "Rural", answer[BT_RURAL], 2, "ac\n");
    put(to, "\ninflow = released + stored: ");
    column(to, 0, answer[BT_INFLOW], 3);
    put(to, " = ");
    column(to, 0, answer[BT_RELEASED], 3);
    put(to, " + ");
    column(to, 0, answer[BT_STORAGE], 3);
    put(to, "\n");
}

/* What a refusal's place counts, and its rule. */
static const char *const RULES[] = {
    NULL,
    ": the number of rows must be from 1 to 2,000",
    ": the step must be an even number of seconds from 60 to 3,600",
    " (rain entry; 0 also for their count): there must be 2 entries to one more than the rows, starting at 0, never "
    "falling, none above 30 inches",
    ": the last row number must be at most 9,007,199,254,740,991",
    ": the number of subareas must be from 1 to 16",
    " (subarea): it must have 1 to 8 patches, each of cover 1 to 22, soil group 1 to 4 and 0.01 to 2,000 acres",
    " (subarea): it must have 1 to 6 segments, each of kind 1 to 5, length 1 to 4,000 ft, slope, velocity and radius 1 "
    "to 10,000, n 1 to 999 and 2-year rain 1 to 30,000; only the first may be a sheet segment (kind 4), of at most 300 "
    "ft by sheet rule 1, 100 ft by 2",
    ": all subareas together must have at most 2,000 acres",
    " (subarea): its time of concentration must be at most 36,000 seconds",
    " (subarea): the step must not be longer than its time to peak",
    " (subarea): five times its time to peak must not be longer than 512 steps",
    " (pond row; 0 for their count): there must be 2 to 64 rows within their limits, stage and storage rising, "
    "discharge never falling, the first storage and discharge 0",
    " (pond row): it must store at least half a step of its discharge",
    " (row): its water must not be more than the last pond row can hold and release",
    [BT_REFUSED_RISE] = " (rain entry): it must be at most 4 inches above the one before",
    [BT_REFUSED_RULE] = ": the sheet rule must be 1 (300 ft, TR-55 of 1986) or 2 (100 ft, WinTR-55 and NEH 630 chapter "
                        "15)",
};

u64 paper(const struct site *s, char *text, size_t room)
{
    static struct columns c;
    u64 answer[BT_ANSWER_LENGTH];
    struct sink to = { text, room };
    reference_study(s->step, s->first, s->rule, s->rain.at, s->rain.len, s->subareas.at, s->subareas.len, s->pond.at,
                    s->pond.len, c.inflow, s->inflow, c.outflow, s->outflow, c.storage, s->storage, answer);
    u64 number = answer[BT_REFUSAL];
    if (number != 0) {
        put(&to, "Refused: number %" PRIu64 ", place %" PRIu64 "%s\n", number, answer[BT_PLACE], RULES[number]);
        return number;
    }
    heading(&to, s);
    subareas(&to, s);
    patches(&to, s);
    segments(&to, s);
    table(&to, s);
    rows(&to, s, &c);
    figures(&to, s, answer);
    return 0;
}
