/*
 * Two studies that are refused, one that is not, an edit of it, its inflow by both engines and its chart marks, from C.
 * tests/host/run builds this, runs it, and compares what it prints with example.txt.
 *
 *     gcc -I include tests/host/example/example.c target/staticlib/libhost.a -o example
 */
#include <inttypes.h>
#include <stdio.h>
#include <string.h>

#include "bridletenon.h"

#if BT_INTERFACE != 5
#error "this host was written for interface 5"
#endif

enum {
    STEP = 300,          /* seconds */
    FIRST = 1,           /* the first row's number */
    RULE = BT_RULE_TR55, /* sheet flow to 300 ft; the study and its edits name the same */
    ROWS = 24,
    SUBAREAS = 2
};

/* Cumulative, in thousandths of an inch, from 0 on: 3 inches in an hour. */
static const uint64_t rain[] = { 0, 60, 150, 300, 600, 1400, 2200, 2500, 2700, 2830, 2920, 2970, 3000 };

/* Half-acre lots with a parking place, 10 acres; woods and grass, 6 acres. A segment's kind says which member of 'by'
   holds its numbers. */
static bt_subarea list[SUBAREAS] = {
    { .patch_count = 2,
      .patches = { { .cover = 14, .soil = 2, .area = 800 }, { .cover = 4, .soil = 2, .area = 200 } },
      .segment_count = 2,
      .segments = { { .kind = BT_SEGMENT_UNPAVED, .length = 300, .by.shallow = { .slope = 200 } },
                    { .kind = BT_SEGMENT_GIVEN, .length = 1200, .by.given = { .velocity = 250 } } } },
    { .patch_count = 1,
      .patches = { { .cover = 20, .soil = 3, .area = 600 } },
      .segment_count = 1,
      .segments = { { .kind = BT_SEGMENT_UNPAVED, .length = 1500, .by.shallow = { .slope = 300 } } } },
};

/* The second of them once it is built over: one acre is left as it was, and the water runs down a lawn, along a street
   and through a ditch. */
static const bt_subarea built = {
    .patch_count = 2,
    .patches = { { .cover = 12, .soil = 3, .area = 500 }, { .cover = 20, .soil = 3, .area = 100 } },
    .segment_count = 3,
    .segments = {
        { .kind = BT_SEGMENT_SHEET, .length = 150, .by.sheet = { .n = 150, .rain = 3600, .slope = 200 } },
        { .kind = BT_SEGMENT_PAVED, .length = 1400, .by.shallow = { .slope = 300 } },
        { .kind = BT_SEGMENT_CHANNEL, .length = 400, .by.channel = { .n = 30, .radius = 80, .slope = 100 } },
    },
};

/* Stage, storage and discharge, in thousandths of a foot, of a cubic foot and of a cubic foot a second. */
static const uint64_t pond[] = {
    0,    0,        0,
    1000, 12000000, 2000, /* at 1 ft, 12,000 cubic feet and 2 cfs */
    2000, 30000000, 9000,
    4000, 90000000, 20000,
};

enum { RAIN = sizeof rain / sizeof *rain, POND = sizeof pond / sizeof *pond };

/* What the engine fills: a number for each row. */
static uint64_t inflow[ROWS], outflow[ROWS], storage[ROWS];

static void thousandths(const char *what, uint64_t number, const char *unit)
{
    printf("  %-16s %6" PRIu64 ".%03" PRIu64 " %s\n", what, number / 1000, number % 1000, unit);
}

static void print_figures(const uint64_t *answer)
{
    thousandths("inflow", answer[BT_INFLOW], "cubic feet");
    thousandths("released", answer[BT_RELEASED], "cubic feet");
    thousandths("stored", answer[BT_STORAGE], "cubic feet");
    thousandths("peak outflow", answer[BT_PEAK], "cfs");
    printf("  %-16s %6" PRIu64 "\n", "in row", answer[BT_ROW]);
    thousandths("greatest stage", answer[BT_STAGE], "ft");
}

/* A refused call has written nothing but its answer: the number says why, the place where. */
static int refused(const char *what, const uint64_t *answer)
{
    printf("%s is refused: %" PRIu64 " at %" PRIu64 "\n", what, answer[BT_REFUSAL], answer[BT_PLACE]);
    return 1;
}

/* A slipped decimal: 30000 where the last entry is 3000. Entries count from 0. */
static int slip(void)
{
    uint64_t slipped[RAIN], answer[BT_ANSWER_LENGTH];
    memcpy(slipped, rain, sizeof rain);
    slipped[RAIN - 1] = 30000;
    if (bt_study_records(STEP, FIRST, RULE, slipped, RAIN, list, SUBAREAS, pond, POND, inflow, ROWS, outflow, ROWS,
                         storage, ROWS, answer) != BT_REFUSED_RISE)
        return 1;
    refused("the study with a slipped decimal", answer);
    return 0;
}

/* The second subarea built over, by the rule that ends sheet flow at 100 ft: its lawn is longer. Subareas count from
   1. */
static int too_long(void)
{
    const bt_subarea over[SUBAREAS] = { list[0], built };
    uint64_t answer[BT_ANSWER_LENGTH];
    if (bt_study_records(STEP, FIRST, BT_RULE_WINTR55, rain, RAIN, over, SUBAREAS, pond, POND, inflow, ROWS, outflow,
                         ROWS, storage, ROWS, answer) != BT_REFUSED_SEGMENTS)
        return 1;
    refused("the study with sheet flow past 100 ft, by the rule of 100 ft,", answer);
    return 0;
}

static int work_study(void)
{
    uint64_t answer[BT_ANSWER_LENGTH];
    if (bt_study_records(STEP, FIRST, RULE, rain, RAIN, list, SUBAREAS, pond, POND, inflow, ROWS, outflow, ROWS,
                         storage, ROWS, answer) != 0)
        return refused("the study", answer);
    printf("the study\n");
    print_figures(answer);
    return 0;
}

/* The list is only read: once the edit is done, the new record goes into it here. */
static int build_over(void)
{
    uint64_t answer[BT_EDIT_ANSWER_LENGTH];
    int64_t changes[BT_CHANGES_LENGTH];
    if (bt_edit_records(STEP, FIRST, RULE, rain, RAIN, list, SUBAREAS, pond, POND, inflow, ROWS, outflow, ROWS, storage,
                        ROWS, 2, (const uint64_t *)&built, answer, changes) != 0)
        return refused("the edit", answer);
    list[1] = built;
    printf("with the second subarea built over\n");
    print_figures(answer);
    printf("  rows from %" PRIu64 " on are new; peak outflow %+" PRId64 ", released %+" PRId64 " thousandths\n",
           answer[BT_CHANGED], changes[BT_PEAK_CHANGE], changes[BT_RELEASED_CHANGE]);
    return 0;
}

/* The inflow rows alone, by both engines. Of outflow and storage only the lengths are read. */
static int work_inflow(uint64_t row)
{
    enum { FLAT = SUBAREAS * BT_WIDTH };
    const uint64_t *flat = (const uint64_t *)list;
    uint64_t one[ROWS], other[ROWS], answer[BT_INFLOW_ANSWER_LENGTH];
    if (bt_inflow(STEP, FIRST, RULE, rain, RAIN, flat, FLAT, one, ROWS, outflow, ROWS, storage, ROWS, answer) != 0 ||
        bt_textbook(STEP, FIRST, RULE, rain, RAIN, flat, FLAT, other, ROWS, outflow, ROWS, storage, ROWS, answer) != 0)
        return refused("the inflow", answer);
    printf("the inflow of row %" PRIu64 " alone\n", row);
    thousandths("bt_inflow", one[row - 1], "cubic feet");
    thousandths("bt_textbook", other[row - 1], "cubic feet");
    return 0;
}

static int print_mark(uint64_t row)
{
    static const char *const kinds[] = { "nothing", "an outflow", "the peak" };
    uint64_t answer[BT_MARK_ANSWER_LENGTH];
    double values[BT_VALUES_LENGTH];
    if (bt_mark(STEP, FIRST, pond, POND, inflow, ROWS, outflow, ROWS, storage, ROWS, row, answer, values) != 0)
        return refused("the mark", answer);
    printf("row %.0f, %.0f seconds: %s, outflow %.3f cfs", values[BT_POINT_ROW], values[BT_POINT_SECONDS],
           kinds[answer[BT_KIND]], values[BT_POINT_OUTFLOW] / 1000);
    if (answer[BT_KIND] == BT_KIND_PEAK)
        printf(" at stage %.3f ft", values[BT_MARK_STAGE] / 1000);
    printf("\n");
    return 0;
}

int main(void)
{
    if (bt_interface() != BT_INTERFACE) {
        printf("the engine that is linked has another interface than the header\n");
        return 1;
    }
    if (slip() != 0 || too_long() != 0 || work_study() != 0 || build_over() != 0 || work_inflow(7) != 0)
        return 1;
    for (uint64_t row = 1; row <= ROWS; row++)
        if (print_mark(row) != 0)
            return 1;
    return print_mark(ROWS + 1) == 0; /* refused: there is no such row */
}
