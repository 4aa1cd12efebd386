/* 'Altering one subarea' of document 01. Both lists are checked whole, and all rows are looked at as found. */
#include <string.h>

#include "rules.h"

static const u64 MOST_INFLOW = 217800000000u;

/* What one edit knows before it writes: rows as found, and as they are to stand. Row k stands at k - 1. */
struct work {
    u64 list[MOST_SUBAREAS * WIDTH]; /* the altered one */
    u64 old_parts[MOST_ROWS], new_parts[MOST_ROWS];
    struct rows found, standing;
    u64 changed; /* first changed row, 0 if none */
};

/* The rows that are lent to an edit. */
struct lists {
    u64 *inflow, *outflow, *storage;
};

/* ---- Refusals */

/* The list with the new record in its place, from 1. */
static struct lent altered(const struct lent *s, u64 place, const u64 *fresh, u64 *list)
{
    struct lent other = *s;
    memcpy(list, s->subareas, s->subareas_len * sizeof *list);
    memcpy(list + WIDTH * (place - 1), fresh, WIDTH * sizeof *list);
    other.subareas = list;
    return other;
}

/* 16: an inflow row below the old part, or above the bound. */
static struct refusal check_inflow(const struct lent *s, const struct lists *rows, const u64 *old_parts)
{
    for (size_t k = 1; k <= s->inflow_len; k++) {
        u64 found = rows->inflow[k - 1];
        if (found < old_parts[k - 1] || found > MOST_INFLOW)
            return refuse(true, 16, k);
    }
    return PASSED;
}

struct refusal check_standing(const struct lent *s, const u64 *outflow, const u64 *storage)
{
    const u64 *last = s->pond + s->pond_len - 3;
    u64 half = s->step / 2;
    for (size_t k = 1; k <= s->outflow_len; k++) {
        wide discharged = (wide)half * outflow[k - 1], stored = storage[k - 1];
        if (outflow[k - 1] > last[2] || stored < discharged || stored + discharged > sum_of(last, half))
            return refuse(true, 17, k);
    }
    return PASSED;
}

/* 1 to 5 with 20 after 2 and 19 after 3, 15, 6 to 11 on the list as it stands, 6 to 11 on the altered list, 12, 13. */
static struct refusal check_lists(const struct lent *s, u64 place, const u64 *fresh, u64 *list)
{
    struct refusal r = run_checks(s);
    if (r.number == 0)
        r = refuse(!within(place, 1, s->subareas_len / WIDTH), 15, 0);
    if (r.number == 0)
        r = list_checks(s);
    if (r.number == 0) {
        struct lent other = altered(s, place, fresh, list);
        r = list_checks(&other);
    }
    return r.number != 0 ? r : pond_checks(s);
}

/* ---- The rows */

/* Rows that stand in lists: the stage is that at storage + h outflow. */
static void stand(const struct lent *s, const struct lists *rows, struct rows *found)
{
    u64 half = s->step / 2;
    for (size_t k = 0; k < s->inflow_len; k++) {
        wide x = (wide)rows->storage[k] + (wide)half * rows->outflow[k];
        found->inflow[k] = rows->inflow[k];
        found->after[k] = (struct state){ rows->storage[k], rows->outflow[k], stage_at(s->pond, half, x) };
    }
}

/* The old record's parts are taken from the inflow rows, the new one's added. */
static void change_inflow(struct work *w, u64 m)
{
    w->standing = w->found;
    w->changed = 0;
    for (u64 k = m; k >= 1; k--) {
        wide now = (wide)w->found.inflow[k - 1] - w->old_parts[k - 1] + w->new_parts[k - 1];
        w->standing.inflow[k - 1] = (u64)now;
        if (now != w->found.inflow[k - 1])
            w->changed = k;
    }
}

static struct refusal work_edit(const struct lent *s, u64 place, const u64 *fresh, const struct lists *rows,
                                struct work *w)
{
    struct refusal r = check_lists(s, place, fresh, w->list);
    if (r.number != 0)
        return r;
    memset(w->old_parts, 0, sizeof w->old_parts);
    memset(w->new_parts, 0, sizeof w->new_parts);
    add_record(s, s->subareas + WIDTH * (place - 1), w->old_parts);
    add_record(s, fresh, w->new_parts);
    r = check_inflow(s, rows, w->old_parts);
    if (r.number == 0)
        r = check_standing(s, rows->outflow, rows->storage);
    if (r.number != 0)
        return r;
    stand(s, rows, &w->found);
    change_inflow(w, s->inflow_len);
    return w->changed == 0 ? PASSED : route_from(s, w->changed, &w->standing);
}

/* ---- The answer */

static void answer_done(const struct lent *s, const struct work *w, u64 *answer, int64_t *changes)
{
    u64 old[12] = { 0 };
    struct lent other = *s;
    other.subareas = w->list;
    row_figures(&w->found, s->inflow_len, s->step / 2, old);
    row_figures(&w->standing, s->inflow_len, s->step / 2, answer);
    class_areas(&other, answer);
    answer[12] = w->changed;
    changes[0] = (int64_t)((wide)answer[5] - old[5]);
    changes[1] = (int64_t)((wide)answer[3] - old[3]);
}

u64 reference_edit(u64 step, u64 first, u64 rule, const u64 *rain, size_t rain_len, const u64 *subareas,
                   size_t subareas_len, const u64 *pond, size_t pond_len, u64 *inflow, size_t inflow_len, u64 *outflow,
                   size_t outflow_len, u64 *storage, size_t storage_len, u64 place, const u64 *fresh, u64 *answer,
                   int64_t *changes)
{
    static struct work w;
    struct lent s = { step,         first,    rule,       rain,        subareas,   pond, rain_len,
                      subareas_len, pond_len, inflow_len, outflow_len, storage_len };
    struct lists rows = { inflow, outflow, storage };
    memset(answer, 0, 13 * sizeof *answer);
    changes[0] = changes[1] = 0;
    struct refusal r = work_edit(&s, place, fresh, &rows, &w);
    if (r.number == 0) {
        answer_done(&s, &w, answer, changes);
        write_rows(&w.standing, inflow_len, inflow, outflow, storage);
    }
    answer[0] = r.number;
    answer[1] = r.place;
    return r.number;
}

/* ---- Parts of it, for those who make cases */

void reference_parts(u64 step, const u64 *rain, size_t rain_len, const u64 *record, u64 *parts, size_t m)
{
    struct lent s = { .step = step, .rain = rain, .rain_len = rain_len, .inflow_len = m };
    memset(parts, 0, m * sizeof *parts);
    add_record(&s, record, parts);
}

struct refusal reference_list_refusal(u64 step, u64 rule, const u64 *subareas, size_t subareas_len)
{
    struct lent s = { .step = step, .rule = rule, .subareas = subareas, .subareas_len = subareas_len };
    return list_checks(&s);
}
