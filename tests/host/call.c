#include "call.h"

#include <string.h>

#include "plain.h"

void call_open(struct call *c)
{
    struct lent_list *lists[] = { &c->rain,    &c->subareas, &c->pond,   &c->inflow,  &c->outflow,
                                  &c->storage, &c->fresh,    &c->answer, &c->changes, &c->values };
    for (size_t i = 0; i < sizeof lists / sizeof *lists; i++)
        lend_open(lists[i]);
}

/* ---- What is lent */

static void lend_inputs(struct call *c, const struct site *s, bool tight)
{
    lend(&c->rain, s->rain.at, s->rain.len, tight);
    lend(&c->subareas, s->subareas.at, s->subareas.len, tight);
    lend(&c->pond, s->pond.at, s->pond.len, tight);
}

static void lend_rows(struct call *c, const struct site *s, const struct columns *found, bool tight)
{
    lend(&c->inflow, found->inflow, s->inflow, tight);
    lend(&c->outflow, found->outflow, s->outflow, tight);
    lend(&c->storage, found->storage, s->storage, tight);
}

void lend_study(struct call *c, const struct site *s, bool tight)
{
    lend_inputs(c, s, tight);
    lend(&c->inflow, NULL, s->inflow, tight);
    lend(&c->outflow, NULL, s->outflow, tight);
    lend(&c->storage, NULL, s->storage, tight);
    lend(&c->answer, NULL, BT_ANSWER_LENGTH, tight);
}

void lend_inflow(struct call *c, const struct site *s, bool tight)
{
    lend(&c->rain, s->rain.at, s->rain.len, tight);
    lend(&c->subareas, s->subareas.at, s->subareas.len, tight);
    lend(&c->inflow, NULL, s->inflow, tight);
    lend_shut(&c->outflow, s->outflow);
    lend_shut(&c->storage, s->storage);
    lend(&c->answer, NULL, BT_INFLOW_ANSWER_LENGTH, tight);
}

void lend_edit(struct call *c, const struct edit *e, bool tight)
{
    lend_inputs(c, &e->site, tight);
    lend_rows(c, &e->site, &e->found, tight);
    lend(&c->fresh, e->fresh, BT_WIDTH, tight);
    lend(&c->answer, NULL, BT_EDIT_ANSWER_LENGTH, tight);
    lend(&c->changes, NULL, BT_CHANGES_LENGTH, tight);
}

void lend_mark(struct call *c, const struct mark *m, bool tight)
{
    lend(&c->pond, m->site.pond.at, m->site.pond.len, tight);
    lend_rows(c, &m->site, &m->found, tight);
    lend(&c->answer, NULL, BT_MARK_ANSWER_LENGTH, tight);
    lend(&c->values, NULL, BT_VALUES_LENGTH, tight);
}

/* ---- The calls */

void engine_study(struct call *c, const struct site *s)
{
    c->gave = bt_study(s->step, s->first, s->rule, c->rain.at, c->rain.len, c->subareas.at, c->subareas.len,
                       c->pond.at, c->pond.len, c->inflow.at, c->inflow.len, c->outflow.at, c->outflow.len,
                       c->storage.at, c->storage.len, c->answer.at);
}

static const bt_subarea *records(const struct call *c)
{
    return (const bt_subarea *)c->subareas.at;
}

void engine_study_records(struct call *c, const struct site *s)
{
    c->gave = bt_study_records(s->step, s->first, s->rule, c->rain.at, c->rain.len, records(c),
                               c->subareas.len / BT_WIDTH, c->pond.at, c->pond.len, c->inflow.at, c->inflow.len,
                               c->outflow.at, c->outflow.len, c->storage.at, c->storage.len, c->answer.at);
}

void plainly_study(struct call *c, const struct site *s)
{
    c->gave = plain_study(s->step, s->first, s->rule, c->rain.at, c->rain.len, c->subareas.at, c->subareas.len,
                          c->pond.at, c->pond.len, c->inflow.at, c->inflow.len, c->outflow.at, c->outflow.len,
                          c->storage.at, c->storage.len, c->answer.at);
}

void study_due(struct result *r, const struct site *s)
{
    r->gave = reference_study(s->step, s->first, s->rule, s->rain.at, s->rain.len, s->subareas.at, s->subareas.len,
                              s->pond.at, s->pond.len, r->rows.inflow, s->inflow, r->rows.outflow, s->outflow,
                              r->rows.storage, s->storage, r->answer);
}

void engine_inflow(struct call *c, const struct site *s)
{
    c->gave = bt_inflow(s->step, s->first, s->rule, c->rain.at, c->rain.len, c->subareas.at, c->subareas.len,
                        c->inflow.at, c->inflow.len, c->outflow.at, c->outflow.len, c->storage.at, c->storage.len,
                        c->answer.at);
}

void engine_textbook(struct call *c, const struct site *s)
{
    c->gave = bt_textbook(s->step, s->first, s->rule, c->rain.at, c->rain.len, c->subareas.at, c->subareas.len,
                          c->inflow.at, c->inflow.len, c->outflow.at, c->outflow.len, c->storage.at, c->storage.len,
                          c->answer.at);
}

/* A study that is refused by 12, 13 or 14 is refused for its pond, and after all else was found good. */
static bool refused_for_pond(const struct result *study)
{
    return BT_REFUSED_POND <= study->gave && study->gave <= BT_REFUSED_FULL;
}

void inflow_due(struct result *r, const struct site *s, const struct result *study)
{
    bool done = study->gave == 0 || refused_for_pond(study);
    r->gave = r->answer[BT_REFUSAL] = done ? 0 : study->gave;
    r->answer[BT_PLACE] = done ? 0 : study->answer[BT_PLACE];
    if (done)
        reference_textbook(s->step, s->rain.at, s->rain.len, s->subareas.at, s->subareas.len, r->rows.inflow,
                           s->inflow);
}

void engine_edit(struct call *c, const struct edit *e)
{
    const struct site *s = &e->site;
    c->gave = bt_edit(s->step, s->first, s->rule, c->rain.at, c->rain.len, c->subareas.at, c->subareas.len, c->pond.at,
                      c->pond.len, c->inflow.at, c->inflow.len, c->outflow.at, c->outflow.len, c->storage.at,
                      c->storage.len, e->place, c->fresh.at, c->answer.at, (int64_t *)c->changes.at);
}

void engine_edit_records(struct call *c, const struct edit *e)
{
    const struct site *s = &e->site;
    c->gave = bt_edit_records(s->step, s->first, s->rule, c->rain.at, c->rain.len, records(c),
                              c->subareas.len / BT_WIDTH, c->pond.at, c->pond.len, c->inflow.at, c->inflow.len,
                              c->outflow.at, c->outflow.len, c->storage.at, c->storage.len, e->place, c->fresh.at,
                              c->answer.at, (int64_t *)c->changes.at);
}

void plainly_edit(struct call *c, const struct edit *e)
{
    const struct site *s = &e->site;
    c->gave = plain_edit(s->step, s->first, s->rule, c->rain.at, c->rain.len, c->subareas.at, c->subareas.len,
                         c->pond.at, c->pond.len, c->inflow.at, c->inflow.len, c->outflow.at, c->outflow.len,
                         c->storage.at, c->storage.len, e->place, c->fresh.at, c->answer.at,
                         (int64_t *)c->changes.at);
}

void edit_due(struct result *r, const struct edit *e)
{
    const struct site *s = &e->site;
    r->rows = e->found;
    r->gave = reference_edit(s->step, s->first, s->rule, s->rain.at, s->rain.len, s->subareas.at, s->subareas.len,
                             s->pond.at, s->pond.len, r->rows.inflow, s->inflow, r->rows.outflow, s->outflow,
                             r->rows.storage, s->storage, e->place, e->fresh, r->answer, r->changes);
}

void engine_mark(struct call *c, const struct mark *m)
{
    c->gave = bt_mark(m->site.step, m->site.first, c->pond.at, c->pond.len, c->inflow.at, c->inflow.len, c->outflow.at,
                      c->outflow.len, c->storage.at, c->storage.len, m->row, c->answer.at, (double *)c->values.at);
}

void plainly_mark(struct call *c, const struct mark *m)
{
    c->gave = plain_mark(m->site.step, m->site.first, c->pond.at, c->pond.len, c->inflow.at, c->inflow.len,
                         c->outflow.at, c->outflow.len, c->storage.at, c->storage.len, m->row, c->answer.at,
                         (double *)c->values.at);
}

void mark_due(struct result *r, const struct mark *m)
{
    const struct site *s = &m->site;
    r->gave = reference_mark(s->step, s->first, s->pond.at, s->pond.len, s->inflow, m->found.outflow, s->outflow,
                             m->found.storage, s->storage, m->row, r->answer, r->values);
}

/* ---- What may be wrong with any call */

/* Lists that every call has but those of inflow rows alone. */
static bool shared_guards_hold(const struct call *c)
{
    return guards_hold(&c->pond) && guards_hold(&c->inflow) && guards_hold(&c->outflow) && guards_hold(&c->storage) &&
           guards_hold(&c->answer);
}

static const char *inputs_fault(const struct call *c, const struct site *s)
{
    if (!guards_hold(&c->rain) || !guards_hold(&c->subareas) || !shared_guards_hold(c))
        return "written outside a list";
    if (!holds(&c->rain, s->rain.at) || !holds(&c->subareas, s->subareas.at) || !holds(&c->pond, s->pond.at))
        return "an input was changed";
    return NULL;
}

static bool same_words(const u64 *a, const u64 *b, size_t count)
{
    return memcmp(a, b, count * sizeof *a) == 0;
}

static const char *rows_fault(const struct call *c, const struct columns *due)
{
    if (!holds(&c->inflow, due->inflow))
        return "inflow rows differ";
    if (!holds(&c->outflow, due->outflow))
        return "outflow rows differ";
    if (!holds(&c->storage, due->storage))
        return "storage rows differ";
    return NULL;
}

/* Through every row: the inflow so far is what is stored and what was released. Of the engine's rows alone. */
static bool balanced(const struct call *c, u64 half)
{
    wide inflow = 0, released = 0;
    u64 old = 0;
    for (size_t k = 0; k < c->inflow.len; k++) {
        inflow += c->inflow.at[k];
        released += (wide)half * ((wide)old + c->outflow.at[k]);
        if (inflow != released + c->storage.at[k])
            return false;
        old = c->outflow.at[k];
    }
    return true;
}

/* ---- A study */

const char *study_fault(const struct call *c, const struct site *s, const struct result *due)
{
    const char *fault = inputs_fault(c, s);
    if (fault)
        return fault;
    if (c->gave != due->gave)
        return "the number given back differs";
    if (!holds(&c->answer, due->answer))
        return "the answer differs";
    if (due->gave != 0 && (!holds_paint(&c->inflow) || !holds_paint(&c->outflow) || !holds_paint(&c->storage)))
        return "refused, but a row was written";
    if (due->gave == 0 && (fault = rows_fault(c, &due->rows)))
        return fault;
    return due->gave != 0 || balanced(c, s->step / 2) ? NULL : "the rows do not balance";
}

/* ---- The inflow rows alone */

const char *inflow_fault(const struct call *c, const struct site *s, const struct result *due)
{
    if (!guards_hold(&c->rain) || !guards_hold(&c->subareas) || !guards_hold(&c->inflow) || !guards_hold(&c->answer))
        return "written outside a list";
    if (!holds(&c->rain, s->rain.at) || !holds(&c->subareas, s->subareas.at))
        return "an input was changed";
    if (c->gave != due->gave)
        return "the number given back differs";
    if (!holds(&c->answer, due->answer))
        return "the answer differs";
    if (due->gave != 0)
        return holds_paint(&c->inflow) ? NULL : "refused, but a row was written";
    return holds(&c->inflow, due->rows.inflow) ? NULL : "inflow rows differ";
}

/* The inflow rows by document 01's sums, where they are done. */
static void sum_parts(const struct site *s, u64 *rows)
{
    static u64 parts[ROOM];
    memset(rows, 0, s->inflow * sizeof *rows);
    for (size_t i = 0; i < s->subareas.len; i += BT_WIDTH) {
        reference_parts(s->step, s->rain.at, s->rain.len, s->subareas.at + i, parts, s->inflow);
        for (size_t k = 0; k < s->inflow; k++)
            rows[k] += parts[k];
    }
}

const char *ways_fault(const struct site *s, const struct result *study, const struct result *due)
{
    static u64 summed[ROOM];
    const u64 *rows = study->rows.inflow;
    if (due->gave != 0)
        return NULL;
    if (refused_for_pond(study)) {
        sum_parts(s, summed);
        rows = summed;
    }
    return same_words(due->rows.inflow, rows, s->inflow) ? NULL : "the reference's two ways to the inflow rows differ";
}

/* ---- An edit */

/* Of the engine's answer and rows alone: the first changed row is the first whose inflow differs, and the rows before
   it are word by word as they were found; all of them where none is changed. */
static const char *changed_fault(const struct call *c, const struct columns *found)
{
    size_t m = c->inflow.len, differs = 0;
    while (differs < m && c->inflow.at[differs] == found->inflow[differs])
        differs++;
    if (c->answer.at[BT_CHANGED] != (differs == m ? 0 : differs + 1))
        return "the first changed row is not the first whose inflow differs";
    if (!same_words(c->outflow.at, found->outflow, differs) || !same_words(c->storage.at, found->storage, differs))
        return "a row before the first changed one was written";
    return NULL;
}

const char *edit_fault(const struct call *c, const struct edit *e, const struct result *due)
{
    const char *fault = inputs_fault(c, &e->site);
    if (fault)
        return fault;
    if (!guards_hold(&c->fresh) || !guards_hold(&c->changes))
        return "written outside the new record or the changes";
    if (!holds(&c->fresh, e->fresh))
        return "the new record was changed";
    if (c->gave != due->gave)
        return "the number given back differs";
    if (!holds(&c->answer, due->answer))
        return "the answer differs";
    if (!holds(&c->changes, (const u64 *)due->changes))
        return "the changes differ";
    if (due->gave != 0 && rows_fault(c, &e->found))
        return "refused, but a row was written";
    if (due->gave == 0 && (fault = changed_fault(c, &e->found)))
        return fault;
    return rows_fault(c, &due->rows);
}

const char *standing_fault(const struct call *c, const struct edit *e, const u64 *before, const struct result *anew)
{
    const u64 *after = c->answer.at;
    const int64_t *changes = (const int64_t *)c->changes.at;
    if (c->gave == BT_REFUSED_EDIT)
        return NULL;
    if (c->gave != anew->gave)
        return "refused otherwise than a new study of the altered list";
    if (!same_words(after, anew->answer, BT_ANSWER_LENGTH))
        return "other figures, or another place, than a new study of the altered list";
    if (c->gave != 0)
        return NULL;
    if (rows_fault(c, &anew->rows))
        return "other rows than a new study of the altered list";
    if (!balanced(c, e->site.step / 2))
        return "the rows do not balance";
    if (changes[BT_PEAK_CHANGE] != (int64_t)(after[BT_PEAK] - before[BT_PEAK]) ||
        changes[BT_RELEASED_CHANGE] != (int64_t)(after[BT_RELEASED] - before[BT_RELEASED]))
        return "the changes are not the new figures less those before";
    return NULL;
}

/* ---- A mark */

double value_of(const struct call *c, size_t i)
{
    double value;
    memcpy(&value, c->values.at + i, sizeof value);
    return value;
}

/* Each double is the whole number itself, and going back gives the same number. No double here is a negative zero. */
static bool values_hold(const struct call *c, const u64 *due)
{
    for (size_t i = 0; i < BT_VALUES_LENGTH; i++) {
        double value = value_of(c, i);
        if (!(value == (double)due[i]) || (u64)value != due[i] || c->values.at[i] >> 63 != 0)
            return false;
    }
    return true;
}

const char *mark_fault(const struct call *c, const struct mark *m, const struct result *due)
{
    if (!shared_guards_hold(c) || !guards_hold(&c->values))
        return "written outside a list";
    if (!holds(&c->pond, m->site.pond.at) || rows_fault(c, &m->found))
        return "an input was changed";
    if (c->gave != due->gave)
        return "the number given back differs";
    if (!holds(&c->answer, due->answer))
        return "the answer differs";
    return values_hold(c, due->values) ? NULL : "the values differ";
}
