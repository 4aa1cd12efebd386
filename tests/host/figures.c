#include "figures.h"

#include <inttypes.h>
#include <stdio.h>
#include <string.h>

static int tried, wrong;

static void figure(const char *name, u64 got, u64 expected)
{
    tried++;
    if (got == expected)
        return;
    wrong++;
    printf("reference: %s is %" PRIu64 ", document 01 has %" PRIu64 "\n", name, got, expected);
}

static void leaves(void)
{
    figure("C 80, p 3000", reference_runoff(800, 3000), 1250000);
    figure("C 80, p 500", reference_runoff(800, 500), 0);
    figure("C 80, p 520", reference_runoff(800, 520), 158);
    figure("C 98, p 3000", reference_runoff(980, 3000), 2768268);
    figure("C 40, p 8000", reference_runoff(400, 8000), 1250000);
    figure("Tp 216, D 60: weight 1", reference_weight(216, 60, 1), 170000);
    figure("Tp 216, D 60: weight 18", reference_weight(216, 60, 18), 0);
    figure("100 hundredths, depth 1,000,000", reference_volume(100, 1000000), 3630000);
}

/* ---- Tenths of curve numbers */

/* Of two patches of cover 'one' and 'two' on a soil group each, with their areas. */
static u64 tenths_of(u64 one, u64 soil, u64 area, u64 two, u64 other_soil, u64 other_area)
{
    const u64 record[BT_WIDTH] = { 2, one, soil, area, two, other_soil, other_area };
    return reference_tenths(record);
}

/* 98 and 61 in parts of 85 and 15 are 92.45, and 57 and 68 in parts of 1 and 19 are 67.45: on a half, and beside it. */
static void means(void)
{
    figure("tenths of equal areas of 61 and 74", tenths_of(3, 2, 50, 3, 3, 50), 675);
    figure("tenths of 92.45", tenths_of(4, 2, 85, 3, 2, 15), 925);
    figure("tenths of a little less", tenths_of(4, 2, 84999, 3, 2, 15001), 924);
    figure("tenths of a little more", tenths_of(4, 2, 85001, 3, 2, 14999), 925);
    figure("tenths of 67.45", tenths_of(13, 1, 1, 1, 1, 19), 675);
    figure("tenths of a little less", tenths_of(13, 1, 5001, 1, 1, 94999), 674);
    figure("tenths of 80.0", tenths_of(4, 3, 25, 3, 3, 75), 800);
    figure("tenths of 30 and 98 in the greatest areas", tenths_of(19, 1, 200000, 4, 1, 200000), 640);
}

/* N is 0 at 62.5 and 1.2 in. At 67.5 it is above 0 from 0.963 in on, and a millionth of an inch runs off from 0.966; at
   97.5 that much and more runs off the first rain at which N is above 0. */
static void runoff_of_tenths(void)
{
    figure("C 67.5, p 3000", reference_runoff(675, 3000), 605605);
    figure("C 67.4, p 3000", reference_runoff(674, 3000), 601450);
    figure("C 67.6, p 3000", reference_runoff(676, 3000), 609774);
    figure("C 67.5, p 962", reference_runoff(675, 962), 0);
    figure("C 67.5, p 963", reference_runoff(675, 963), 0);
    figure("C 67.5, p 966", reference_runoff(675, 966), 1);
    figure("C 62.5, p 1199", reference_runoff(625, 1199), 0);
    figure("C 62.5, p 1200", reference_runoff(625, 1200), 0);
    figure("C 62.5, p 1202", reference_runoff(625, 1202), 0);
    figure("C 62.5, p 1203", reference_runoff(625, 1203), 1);
    figure("C 97.5, p 51", reference_runoff(975, 51), 0);
    figure("C 97.5, p 52", reference_runoff(975, 52), 2);
    figure("C 30.1, p 30000", reference_runoff(301, 30000), 13234375);
    figure("C 97.9, p 30000", reference_runoff(979, 30000), 29744119);
}

/* ---- Travel time */

static u64 time_of(u64 kind, u64 length, u64 third, u64 fourth, u64 fifth)
{
    const u64 segment[BT_SEGMENT_WIDTH] = { kind, length, third, fourth, fifth };
    return reference_segment(segment);
}

static void shallow_times(void)
{
    figure("1,000 ft at slope 100, unpaved", time_of(BT_SEGMENT_UNPAVED, 1000, 100, 0, 0), 619);
    figure("1,000 ft at slope 100, paved", time_of(BT_SEGMENT_PAVED, 1000, 100, 0, 0), 491);
    figure("the same, its spare numbers not 0", time_of(BT_SEGMENT_PAVED, 1000, 100, 1, UINT64_MAX), 491);
    figure("800 ft at 3 ft/s, its spare numbers not 0", time_of(BT_SEGMENT_GIVEN, 800, 300, UINT64_MAX, 1), 266);
}

/* TR-55 prints 0.30, 0.24 and 0.99 hours, together 1.53. The channel, of 7,300 ft, is entered as two halves. */
static void example_of_tr55(void)
{
    u64 sheet = time_of(BT_SEGMENT_SHEET, 100, 240, 3600, 100), shallow = time_of(BT_SEGMENT_UNPAVED, 1400, 100, 0, 0);
    u64 half = time_of(BT_SEGMENT_CHANNEL, 3650, 50, 96, 50);
    figure("example 3-1 of TR-55, sheet flow", sheet, 1065);
    figure("example 3-1 of TR-55, shallow flow", shallow, 867);
    figure("example 3-1 of TR-55, half of the channel", half, 1779);
    figure("example 3-1 of TR-55, hundredths of an hour", (sheet + shallow + 2 * half + 18) / 36, 153);
}

static void manning_ends(void)
{
    figure("the greatest time of sheet flow", time_of(BT_SEGMENT_SHEET, 300, 999, 1, 1), 3039134);
    figure("the least time of sheet flow", time_of(BT_SEGMENT_SHEET, 1, 1, 30000, 10000), 0);
    figure("the greatest time of a channel", time_of(BT_SEGMENT_CHANNEL, 4000, 999, 1, 1), 5777933);
    figure("the least time of a channel", time_of(BT_SEGMENT_CHANNEL, 1, 1, 10000, 10000), 0);
    figure("2,800 ft of a channel", time_of(BT_SEGMENT_CHANNEL, 2800, 50, 2000, 50), 180);
}

const struct timed EXACT[EXACT_TIMES] = {
    { { BT_SEGMENT_SHEET, 10, 1, 490, 7776 }, 1 },
    { { BT_SEGMENT_SHEET, 17, 10, 4410, 9248 }, 3 },
    { { BT_SEGMENT_SHEET, 250, 50, 20250, 500 }, 140 },
    { { BT_SEGMENT_SHEET, 1, 10, 10, 1 }, 252 },
    { { BT_SEGMENT_SHEET, 100, 100, 1000, 10 }, 2520 },
    { { BT_SEGMENT_SHEET, 300, 900, 1000, 7290 }, 2520 },
    { { BT_SEGMENT_SHEET, 200, 400, 4000, 20 }, 5040 },
    { { BT_SEGMENT_SHEET, 110, 121, 10, 11 }, 30492 },
    { { BT_SEGMENT_SHEET, 290, 841, 360, 29 }, 35322 },
    { { BT_SEGMENT_CHANNEL, 1, 149, 100, 100 }, 1 },
    { { BT_SEGMENT_CHANNEL, 12, 149, 800, 900 }, 1 },
    { { BT_SEGMENT_CHANNEL, 4000, 149, 6400, 10000 }, 25 },
    { { BT_SEGMENT_CHANNEL, 3996, 298, 800, 900 }, 666 },
    { { BT_SEGMENT_CHANNEL, 4000, 149, 100, 100 }, 4000 },
    { { BT_SEGMENT_CHANNEL, 3600, 149, 100, 4 }, 18000 },
    { { BT_SEGMENT_CHANNEL, 4000, 894, 100, 100 }, 24000 },
    { { BT_SEGMENT_CHANNEL, 3600, 149, 100, 1 }, 36000 },
    { { BT_SEGMENT_CHANNEL, 3000, 894, 100, 25 }, 36000 },
};

/* A little more rain, or radius, and the time falls short of T. */
static void exact_times(void)
{
    for (size_t i = 0; i < EXACT_TIMES; i++) {
        struct timed beside = EXACT[i];
        figure("an exact time", reference_segment(beside.segment), beside.seconds);
        beside.segment[3]++;
        figure("less than it", reference_segment(beside.segment) < beside.seconds, 1);
    }
}

/* ---- Segments that 7 refuses, those whose Tc 9 does, and spare numbers */

/* Of a record whose segments are these, in their order. */
static struct refusal refusal_of_path(const u64 (*segments)[BT_SEGMENT_WIDTH], size_t count, u64 *concentration)
{
    u64 record[BT_WIDTH] = { 1, 4, 1, 1, [BT_SEGMENT_COUNT] = count };
    memcpy(record + BT_SEGMENTS, segments, count * sizeof *segments);
    struct refusal r = reference_list_refusal(60, BT_RULE_TR55, record, BT_WIDTH);
    *concentration = r.number == BT_REFUSED_SEGMENTS ? 0 : reference_concentration(record);
    return r;
}

static void sheet_places(void)
{
    static const u64 path[][BT_SEGMENT_WIDTH] = {
        { BT_SEGMENT_SHEET, 100, 240, 3600, 100 },
        { BT_SEGMENT_SHEET, 100, 240, 3600, 100 },
        { BT_SEGMENT_UNPAVED, 1400, 100 },
        { BT_SEGMENT_SHEET, 100, 240, 3600, 100 },
    };
    u64 concentration;
    figure("sheet flow first", refusal_of_path(path + 1, 2, &concentration).number, 0);
    figure("its Tc", concentration, 1065 + 867);
    figure("sheet flow twice", refusal_of_path(path, 2, &concentration).number, 7);
    figure("sheet flow second", refusal_of_path(path + 2, 2, &concentration).number, 7);
    figure("sheet flow past the count", refusal_of_path(path + 2, 1, &concentration).number, 0);
}

static void greatest_path(void)
{
    u64 path[BT_MOST_SEGMENTS][BT_SEGMENT_WIDTH], concentration;
    for (size_t i = 0; i < BT_MOST_SEGMENTS; i++)
        set_segment(path[i], (const u64[]){ BT_SEGMENT_CHANNEL, 4000, 999, 1, 1 });
    figure("six channels of the greatest time", refusal_of_path(path, BT_MOST_SEGMENTS, &concentration).number, 9);
    figure("their Tc", concentration, 34667598);
}

static const u64 POND[] = { 0, 0, 0, 1000, 9000, 100 };

static void pond_rows_of_three(void)
{
    static const u64 inflow[] = { 6000, 0, 1 }, outflow[] = { 50, 25, 12 }, storage[] = { 4500, 2250, 1141 };
    struct state state = { 0, 0, 0 };
    u64 released = 0, old = 0;
    for (int k = 0; k < 3; k++) {
        figure("a pond row fits", (u64)reference_step(POND, 2, 30, inflow[k], &state), 1);
        figure("its outflow", state.outflow, outflow[k]);
        figure("its storage", state.storage, storage[k]);
        released += 30 * (old + state.outflow);
        old = state.outflow;
    }
    figure("released", released, 4860);
    figure("released and stored", released + state.storage, 6001);
}

static void pond_ends(void)
{
    struct state empty = { 0, 0, 0 }, other = empty;
    figure("inflow 12,000 fits", (u64)reference_step(POND, 2, 30, 12000, &empty), 1);
    figure("inflow 12,001 fits", (u64)reference_step(POND, 2, 30, 12001, &other), 0);
}

/* A little rain on one roof: only the limit that a figure speaks of can be passed. */
static u64 refusal_of(u64 step, u64 concentration, u64 discharge, u64 first)
{
    const u64 rain[] = { 0, 2 }, pond[] = { 0, 0, 0, 1000, 9000, discharge };
    u64 record[BT_WIDTH] = { 1, 4, 1, 1 }, inflow, outflow, storage, answer[BT_ANSWER_LENGTH];
    set_concentration(record, concentration);
    return reference_study(step, first, BT_RULE_TR55, rain, 2, record, BT_WIDTH, pond, 6, &inflow, 1, &outflow, 1,
                           &storage, 1, answer);
}

/* ---- Half the step in Tp: docs/DECISIONS.md, request Q-3 */

static void peaks(void)
{
    figure("Tp at Tc 360, D 432", reference_peak(432, 360), 432);
    figure("Tp at Tc 360, D 434", reference_peak(434, 360), 433);
    figure("Tp at Tc 10,191, D 60", reference_peak(60, 10191), 6144);
    figure("Tp at Tc 10,192, D 60", reference_peak(60, 10192), 6145);
    figure("example 16-1 of NEH 630: hundredths of an hour at Tc 2.3, D 0.3", reference_peak(1080, 8280) / 36, 153);
}

/* On both sides of 10 and 11: the D or Tc that just passes, and the next. From D 212 on 9 comes before 11. */
static void peak_limits(void)
{
    static const struct {
        u64 step, concentration, refusal;
    } cases[] = {
        { 432, 360, 0 },   { 434, 360, 10 },
        { 434, 362, 0 },   { 434, 361, 10 },
        { 3600, 3000, 0 }, { 3600, 2999, 10 },
        { 60, 10191, 0 },  { 60, 10192, 11 },
        { 120, 20381, 0 }, { 120, 20382, 11 },
        { 210, 35666, 0 }, { 210, 35667, 11 },
        { 212, 36000, 0 }, { 212, 36001, 9 },
    };
    for (size_t i = 0; i < sizeof cases / sizeof *cases; i++) {
        u64 step = cases[i].step, concentration = cases[i].concentration;
        char name[64];
        snprintf(name, sizeof name, "the refusal at D %" PRIu64 ", Tc %" PRIu64, step, concentration);
        figure(name, refusal_of(step, concentration, 0, 1), cases[i].refusal);
    }
}

/* A row that was left by an earlier rule, edited, and a study of the altered list: the inflow of each. */
static void row_from_before(const char *name, u64 *old, u64 *fresh, struct state found, u64 inflow, u64 edited,
                            u64 studied)
{
    static const u64 rain[] = { 0, 3000 };
    u64 answer[BT_EDIT_ANSWER_LENGTH];
    int64_t changes[BT_CHANGES_LENGTH];
    set_concentration(old, 360);
    set_concentration(fresh, 360);
    figure(name,
           reference_edit(60, 1, BT_RULE_TR55, rain, 2, old, BT_WIDTH, POND, 6, &inflow, 1, &found.outflow, 1,
                          &found.storage, 1, 1, fresh, answer, changes),
           0);
    figure("its total inflow", answer[BT_INFLOW], edited);
    figure("a study of the altered list",
           reference_study(60, 1, BT_RULE_TR55, rain, 2, fresh, BT_WIDTH, POND, 6, &inflow, 1, &found.outflow, 1,
                           &found.storage, 1, answer),
           0);
    figure("its total inflow", answer[BT_INFLOW], studied);
}

/* Tp without h, 216 s: 1 hundredth of an acre of roofs, edited to 2. The mean 67.5 as 68: two lawns of 1, edited to 2. */
static void rows_from_before(void)
{
    u64 roof[BT_WIDTH] = { 1, 4, 1, 1 }, roofs[BT_WIDTH] = { 1, 4, 1, 2 };
    u64 lawns[BT_WIDTH] = { 2, 3, 2, 1, 3, 3, 1 }, wider[BT_WIDTH] = { 2, 3, 2, 2, 3, 3, 2 };
    row_from_before("an edit of a row without h in its Tp", roof, roofs, (struct state){ .outflow = 29, .storage = 2680 },
                    3550, 6116, 5132);
    row_from_before("an edit of a row over a whole curve number", lawns, wider,
                    (struct state){ .outflow = 9, .storage = 891 }, 1161, 2284, 2245);
}

static void limits(void)
{
    figure("discharge 300", refusal_of(60, 360, 300, 1), 0);
    figure("discharge 301", refusal_of(60, 360, 301, 1), 13);
    figure("last row number 9007199254740991", refusal_of(60, 360, 0, 9007199254740991), 0);
    figure("last row number 9007199254740992", refusal_of(60, 360, 0, 9007199254740992), 4);
}

/* ---- Rises of the rain: docs/DECISIONS.md, request Q-1 */

static u64 refusal_of_rain(const u64 *rain, size_t entries, u64 *place)
{
    static const u64 pond[] = { 0, 0, 0, 1000, 1000000, 0 };
    u64 record[BT_WIDTH] = { 1, 4, 1, 1 }, rows[3][3], answer[BT_ANSWER_LENGTH];
    set_concentration(record, 360);
    reference_study(60, 1, BT_RULE_TR55, rain, entries, record, BT_WIDTH, pond, 6, rows[0], 3, rows[1], 3, rows[2], 3,
                    answer);
    *place = answer[BT_PLACE];
    return answer[BT_REFUSAL];
}

static void rises(void)
{
    static const u64 most[] = { 0, 4000, 8000, 12000 }, first[] = { 0, 4001, 4001 }, last[] = { 0, 500, 750, 12500 };
    static const u64 falls[] = { 0, 4001, 4002, 4001 };
    u64 place;
    figure("rises of 4,000", refusal_of_rain(most, 4, &place), 0);
    figure("a rise of 4,001 from entry 0", refusal_of_rain(first, 3, &place), 19);
    figure("its place", place, 1);
    figure("12,500 typed for 1,250", refusal_of_rain(last, 4, &place), 19);
    figure("its place", place, 3);
    figure("a leap, then a fall", refusal_of_rain(falls, 4, &place), 3);
    figure("its place", place, 3);
}

/* ---- Sheet rules: request Q-4 */

/* Two roofs, the second with sheet flow of a length, or none where it is 0, and all that is lent beside them. */
struct roofs {
    u64 step, first, rule, rain, list[2 * BT_WIDTH];
    size_t subareas, rows; /* rows of inflow; the other two lists have 3 */
    u64 inflow[3], outflow[3], storage[3];
    u64 answer[BT_EDIT_ANSWER_LENGTH];
};

static const u64 ROOF_POND[] = { 0, 0, 0, 1000, 100000000, 1000 };

static void set_roof(u64 *record, u64 length)
{
    static const u64 roof[] = { 1, 4, 1, 100 };
    memset(record, 0, BT_WIDTH * sizeof *record);
    memcpy(record, roof, sizeof roof);
    set_concentration(record, 360);
    if (length != 0)
        set_sheet(record, length);
}

static struct roofs roofs_of(u64 rule, u64 length)
{
    struct roofs s = { .step = 60, .first = 1, .rule = rule, .rain = 3000, .subareas = 2, .rows = 3 };
    set_roof(s.list, 0);
    set_roof(s.list + BT_WIDTH, length);
    return s;
}

static u64 study_roofs(struct roofs *s)
{
    const u64 rain[] = { 0, s->rain };
    return reference_study(s->step, s->first, s->rule, rain, 2, s->list, s->subareas * BT_WIDTH, ROOF_POND, 6,
                           s->inflow, s->rows, s->outflow, 3, s->storage, 3, s->answer);
}

static u64 edit_roofs(struct roofs *s, u64 place, u64 length)
{
    const u64 rain[] = { 0, s->rain };
    u64 fresh[BT_WIDTH];
    int64_t changes[BT_CHANGES_LENGTH];
    set_roof(fresh, length);
    return reference_edit(s->step, s->first, s->rule, rain, 2, s->list, s->subareas * BT_WIDTH, ROOF_POND, 6, s->inflow,
                          s->rows, s->outflow, 3, s->storage, 3, place, fresh, s->answer, changes);
}

static void sheet_limits(void)
{
    static const struct {
        u64 rule, length, refusal, place;
    } cases[] = {
        { 1, 100, 0, 0 }, { 1, 101, 0, 0 }, { 1, 300, 0, 0 }, { 1, 301, 7, 2 },
        { 2, 100, 0, 0 }, { 2, 101, 7, 2 }, { 2, 300, 7, 2 }, { 2, 301, 7, 2 },
        { 0, 0, 20, 0 },  { 1, 0, 0, 0 },   { 2, 0, 0, 0 },   { 3, 0, 20, 0 },  { UINT64_MAX, 0, 20, 0 },
        { 0, 50, 20, 0 }, { 1, 50, 0, 0 },  { 2, 50, 0, 0 },  { 3, 50, 20, 0 }, { UINT64_MAX, 50, 20, 0 },
    };
    for (size_t i = 0; i < sizeof cases / sizeof *cases; i++) {
        struct roofs s = roofs_of(cases[i].rule, cases[i].length);
        char name[64];
        snprintf(name, sizeof name, "%" PRIu64 " ft of sheet flow by rule %" PRIu64, cases[i].length, cases[i].rule);
        figure(name, study_roofs(&s), cases[i].refusal);
        figure("its place", s.answer[BT_PLACE], cases[i].place);
    }
}

/* No rule and one more fault: 20 stands after 2 and before 3. */
static void order_of_rules(void)
{
    struct roofs rows = roofs_of(0, 301), step = rows, rain = rows, rise = rows, last = rows, none = rows, sheet = rows;
    rows.rows = 2;
    step.step = 61;
    rain.rain = 30001;
    rise.rain = 4001;
    last.first = BT_LAST_ROW_NUMBER;
    none.subareas = 0;
    figure("no rule, and 1", study_roofs(&rows), 1);
    figure("no rule, and 2", study_roofs(&step), 2);
    figure("no rule, and 3", study_roofs(&rain), 20);
    figure("no rule, and 19", study_roofs(&rise), 20);
    figure("no rule, and 4", study_roofs(&last), 20);
    figure("no rule, and 5", study_roofs(&none), 20);
    figure("no rule, and 7", study_roofs(&sheet), 20);
    figure("no rule, and 15", edit_roofs(&sheet, 3, 0), 20);
    rain.rule = rise.rule = last.rule = none.rule = BT_RULE_WINTR55;
    figure("3 of it", study_roofs(&rain), 3);
    figure("19 of it", study_roofs(&rise), 19);
    figure("4 of it", study_roofs(&last), 4);
    figure("5 of it", study_roofs(&none), 5);
}

/* Rows that rule 1 left, of a list with a sheet in its second place; the edit is lent a rule of its own. */
static void edits_by_rules(void)
{
    static const struct {
        u64 standing, place, fresh, rule, refusal, at;
    } cases[] = {
        { 100, 1, 100, 1, 0, 0 },  { 100, 1, 100, 2, 0, 0 }, { 100, 1, 101, 1, 0, 0 }, { 100, 1, 101, 2, 7, 1 },
        { 100, 2, 300, 1, 0, 0 },  { 100, 2, 300, 2, 7, 2 }, { 100, 1, 301, 1, 7, 1 }, { 300, 1, 0, 1, 0, 0 },
        { 300, 1, 0, 2, 7, 2 },    { 300, 2, 100, 1, 0, 0 }, { 300, 2, 100, 2, 7, 2 }, { 101, 1, 301, 2, 7, 2 },
        { 100, 1, 100, 0, 20, 0 }, { 0, 1, 0, 3, 20, 0 },
    };
    for (size_t i = 0; i < sizeof cases / sizeof *cases; i++) {
        struct roofs s = roofs_of(BT_RULE_TR55, cases[i].standing);
        study_roofs(&s);
        s.rule = cases[i].rule;
        figure("an edit by a rule", edit_roofs(&s, cases[i].place, cases[i].fresh), cases[i].refusal);
        figure("its place", s.answer[BT_PLACE], cases[i].at);
    }
}

/* No time goes by the rule. */
static void rows_by_rules(void)
{
    struct roofs one = roofs_of(BT_RULE_TR55, 100), two = roofs_of(BT_RULE_WINTR55, 100);
    figure("a study by rule 1", study_roofs(&one), 0);
    figure("the same by rule 2", study_roofs(&two), 0);
    two.rule = one.rule;
    figure("its rows and figures are the same", (u64)memcmp(&one, &two, sizeof one), 0);
    figure("an edit by rule 1", edit_roofs(&one, 1, 99), 0);
    two.rule = BT_RULE_WINTR55;
    figure("the same by rule 2", edit_roofs(&two, 1, 99), 0);
    two.rule = one.rule;
    figure("its rows and figures are the same", (u64)memcmp(&one, &two, sizeof one), 0);
    figure("and there is water in them", one.answer[BT_INFLOW] > 0, 1);
}

/* ---- Edits of one or two rows in a pond of the greatest size: docs/DECISIONS.md, readings of open places */

struct small_edit {
    size_t rows;
    u64 old_cover, new_cover, new_spare;
    u64 inflow[2], outflow[2], storage[2];
    u64 answer[BT_EDIT_ANSWER_LENGTH];
    int64_t changes[BT_CHANGES_LENGTH];
};

static u64 edit_small(struct small_edit *e)
{
    static const u64 rain[] = { 0, 700 }, pond[] = { 0, 0, 0, 1000000, 1000000000000, 10000000 };
    const u64 old[BT_WIDTH] = { 1, e->old_cover, 1, 1, [BT_SEGMENT_COUNT] = 1, 3, 360, 100 };
    const u64 fresh[BT_WIDTH] = { 1, e->new_cover, 1, 1, [BT_SEGMENT_COUNT] = 1, 3, 360, 100, e->new_spare };
    return reference_edit(60, 1, BT_RULE_TR55, rain, 2, old, BT_WIDTH, pond, 6, e->inflow, e->rows, e->outflow, e->rows,
                          e->storage, e->rows, 1, fresh, e->answer, e->changes);
}

/* None changed: the figures of the rows as found, though no study left them. */
static void nothing_changed(void)
{
    struct small_edit e = { .rows = 2, .old_cover = 19, .new_cover = 19, .inflow = { 5, 5 }, .outflow = { 7, 7 },
                            .storage = { 1000, 210 } };
    figure("an edit that changes nothing", edit_small(&e), 0);
    figure("its total inflow", e.answer[BT_INFLOW], 10);
    figure("its total released", e.answer[BT_RELEASED], 630);
    figure("its last storage", e.answer[BT_STORAGE], 210);
    figure("its peak outflow", e.answer[BT_PEAK], 7);
    figure("its first changed row", e.answer[BT_CHANGED], 0);
    figure("its changes", (u64)(e.changes[BT_PEAK_CHANGE] | e.changes[BT_RELEASED_CHANGE]), 0);
    figure("its last row", e.storage[1], 210);
}

static void spare_changed(void)
{
    struct small_edit e = { .rows = 2, .old_cover = 4, .new_cover = 4, .new_spare = UINT64_MAX,
                            .inflow = { 1000000, 1000000 }, .storage = { 5, 6 } };
    figure("an edit that changes a spare number", edit_small(&e), 0);
    figure("its first changed row", e.answer[BT_CHANGED], 0);
    figure("its last row", e.storage[1], 6);
}

static void found_rows(void)
{
    struct small_edit full = { .rows = 1, .old_cover = 19, .new_cover = 4, .inflow = { 217800000000 } };
    figure("16 is of the row as found", edit_small(&full), 0);
    figure("the new row passes its bound", full.answer[BT_INFLOW], 217800000466);
    full.inflow[0] = 217800000001;
    figure("a row above the bound", edit_small(&full), 16);
    struct small_edit last = { .rows = 2, .old_cover = 19, .new_cover = 4, .outflow = { 0, 10000001 } };
    figure("17 is of every row, also of one about to be written", edit_small(&last), 17);
    figure("its place", last.answer[BT_PLACE], 2);
    struct small_edit both = { .rows = 2, .old_cover = 4, .new_cover = 4, .inflow = { 466, 0 },
                               .outflow = { 10000001 } };
    figure("16 of all rows before 17 of any", edit_small(&both), 16);
    figure("its place", both.answer[BT_PLACE], 2);
    struct small_edit wraps = { .rows = 1, .old_cover = 19, .new_cover = 19, .outflow = { 1000 },
                                .storage = { UINT64_MAX - 29999 } };
    figure("a sum that wraps to 0", edit_small(&wraps), 17);
}

/* ---- Marks of a few rows in document 01's pond */

static u64 mark_small(const u64 *outflow, const u64 *storage, size_t rows, u64 row, u64 *answer, u64 *values)
{
    return reference_mark(60, 1, POND, 6, rows, outflow, rows, storage, rows, row, answer, values);
}

static void marks(void)
{
    static const u64 fading[] = { 50, 0 }, little[] = { 4500, 29 }, level[] = { 50, 50 }, same[] = { 4500, 4500 };
    static const u64 over[] = { 50, 25, 101 }, stored[] = { 4500, 2250, 4500 };
    u64 answer[BT_MARK_ANSWER_LENGTH], values[BT_VALUES_LENGTH];
    figure("a mark of no outflow", mark_small(fading, little, 2, 2, answer, values), 0);
    figure("its kind", answer[BT_KIND], BT_KIND_NOTHING);
    figure("its point's row number", values[BT_POINT_ROW], 2);
    figure("its point's seconds", values[BT_POINT_SECONDS], 120);
    figure("a mark of the peak row", mark_small(level, same, 2, 1, answer, values), 0);
    figure("its kind", answer[BT_KIND], BT_KIND_PEAK);
    figure("its stage", values[BT_MARK_STAGE], 500);
    figure("a mark of a later row as high", mark_small(level, same, 2, 2, answer, values), 0);
    figure("its kind", answer[BT_KIND], BT_KIND_OUTFLOW);
    figure("17 is of every row, whichever is asked", mark_small(over, stored, 3, 1, answer, values), 17);
    figure("its place", answer[BT_PLACE], 3);
}

int figures_wrong(void)
{
    tried = wrong = 0;
    leaves();
    means();
    runoff_of_tenths();
    shallow_times();
    example_of_tr55();
    manning_ends();
    exact_times();
    sheet_places();
    greatest_path();
    pond_rows_of_three();
    pond_ends();
    peaks();
    peak_limits();
    rows_from_before();
    limits();
    rises();
    sheet_limits();
    order_of_rules();
    edits_by_rules();
    rows_by_rules();
    nothing_changed();
    spare_changed();
    found_rows();
    marks();
    return wrong;
}

int figures_tried(void)
{
    return tried;
}
