#include "faults.h"

static void fault_rows(struct site *s, int where)
{
    if (where == 0)
        s->inflow++;
    else if (where == 1)
        s->outflow--;
    else
        s->storage = 0;
}

static void fault_step(struct site *s, int where)
{
    s->step = where == 0 ? 58 : where == 1 ? s->step + 1 : 3602;
}

static void fault_rule(struct site *s, int where)
{
    s->rule = where == 0 ? 0 : where == 1 ? BT_RULE_WINTR55 + 1 : UINT64_MAX;
}

static void fault_rain(struct site *s, int where)
{
    size_t t = place(where, s->rain.len);
    s->rain.at[t] = t == 0 ? 1 : where == 1 ? 30001 : s->rain.at[t - 1] - 1;
}

static void fault_rise(struct site *s, int where)
{
    set_rise(s, 1 + place(where, s->rain.len - 1), BT_MOST_RISE + 1);
}

static void fault_last_number(struct site *s, int where)
{
    s->first = where == 0 ? BT_LAST_ROW_NUMBER : where == 1 ? UINT64_MAX : (u64)1 << 63;
}

static void fault_count(struct site *s, int where)
{
    s->subareas.len = where == 0 ? 0 : where == 1 ? s->subareas.len + 1 : 17 * BT_WIDTH;
}

static void fault_patch(struct site *s, int where)
{
    u64 *record = record_at(s, place(where, 5));
    if (where == 0)
        record[BT_PATCH_COUNT] = 9;
    else
        patch_at(record, 7)[where] = where == 1 ? 5 : 200001;
}

static void fault_segment(struct site *s, int where)
{
    u64 *record = record_at(s, place(where, 5));
    if (where == 0) {
        record[BT_SEGMENT_COUNT] = 0;
    } else if (where == 1) {
        s->rule = BT_RULE_WINTR55;
        set_sheet(record, 101);
    } else {
        set_segment(segment_at(record, 1), GOOD_SEGMENT[BT_SEGMENT_SHEET]);
    }
}

static void fault_area(struct site *s, int where)
{
    patch_at(record_at(s, place(where, 5)), 3)[2] = 200000;
}

static void fault_concentration(struct site *s, int where)
{
    set_concentration(record_at(s, place(where, 5)), 36001);
}

static void fault_step_above_peak(struct site *s, int where)
{
    s->step = 434;
    set_concentration(record_at(s, place(where, 5)), 360);
}

static void fault_weights(struct site *s, int where)
{
    s->step = 120;
    set_concentration(record_at(s, place(where, 5)), 21000);
}

static void fault_pond(struct site *s, int where)
{
    u64 *row = pond_row_at(s, place(where, 7));
    if (where == 0)
        row[1] = 1;
    else if (where == 1)
        row[0] = row[-3];
    else
        row[2] = 10000001;
}

static void fault_pond_storage(struct site *s, int where)
{
    size_t row = 1 + place(where, 6);
    u64 discharge = pond_row_at(s, row)[1] / (s->step / 2) + 1;
    for (size_t i = row; i < 7; i++)
        if (pond_row_at(s, i)[2] < discharge)
            pond_row_at(s, i)[2] = discharge;
}

static void fault_full(struct site *s, int where)
{
    for (size_t i = 0; i < 7; i++) {
        pond_row_at(s, i)[1] = i * (where == 0 ? 1 : where == 1 ? 1000 : 30000);
        pond_row_at(s, i)[2] = 0;
    }
}

const struct fault FAULTS[STUDY_FAULTS] = {
    { BT_REFUSED_ROWS, fault_rows },
    { BT_REFUSED_STEP, fault_step },
    { BT_REFUSED_RULE, fault_rule },
    { BT_REFUSED_RAIN, fault_rain },
    { BT_REFUSED_RISE, fault_rise },
    { BT_REFUSED_ROW_NUMBERS, fault_last_number },
    { BT_REFUSED_SUBAREAS, fault_count },
    { BT_REFUSED_PATCHES, fault_patch },
    { BT_REFUSED_SEGMENTS, fault_segment },
    { BT_REFUSED_AREA, fault_area },
    { BT_REFUSED_TIME, fault_concentration },
    { BT_REFUSED_LONG_STEP, fault_step_above_peak },
    { BT_REFUSED_SHORT_STEP, fault_weights },
    { BT_REFUSED_POND, fault_pond },
    { BT_REFUSED_POND_STORAGE, fault_pond_storage },
    { BT_REFUSED_FULL, fault_full },
};

void fault_of(struct site *s, int number, int where)
{
    for (size_t i = 0; i < STUDY_FAULTS; i++)
        if (FAULTS[i].number == number)
            FAULTS[i].make(s, where);
}
