#include "marks.h"

#include <string.h>

#include "faults.h"
#include "take.h"

#define COUNT(a) (sizeof(a) / sizeof *(a))

static const u64 MOST = UINT64_MAX;

static void take_with(const char *kind, struct mark *m, u64 *at, u64 value)
{
    u64 was = *at;
    *at = value;
    take_mark(kind, m);
    *at = was;
}

/* Every row, the row before the first and those after the last. */
static void take_rows(const char *kind, struct mark *m)
{
    for (m->row = 0; m->row <= m->site.inflow + 2; m->row++)
        take_mark(kind, m);
    take_with(kind, m, &m->row, MOST);
    take_with(kind, m, &m->row, ((u64)1 << 32) + 1);
    m->row = 1;
}

/* A plain site of 12 rows and 7 pond rows that stands. */
static void start_mark(struct mark *m, struct prng *r)
{
    *m = (struct mark){ .row = 1 };
    plain_site(&m->site, r, 5, 7);
    study_rows(&m->site, &m->found);
}

/* ---- Rows */

static void rows_of_studies(struct mark *m, struct prng *r)
{
    for (int i = 0; i < 150; i++) {
        do {
            *m = (struct mark){ 0 };
            likely_site(&m->site, r);
        } while (study_rows(&m->site, &m->found) != 0);
        take_rows("every row of a study", m);
    }
}

static void forged_rows(struct mark *m, struct prng *r)
{
    for (int i = 0; i < 60; i++) {
        start_mark(m, r);
        forge_states(&m->site, &m->found, r);
        take_rows("every forged row", m);
    }
}

static void empty_rows(struct mark *m, struct prng *r)
{
    start_mark(m, r);
    memset(&m->found, 0, sizeof m->found);
    take_rows("no water in any row", m);
    m->found.storage[3] = last_pond_row(&m->site)[1];
    take_rows("water and no outflow", m);
}

/* Every choice of rows with the greatest outflow, of six. */
static void equal_peaks(struct mark *m, struct prng *r)
{
    start_mark(m, r);
    set_rows(&m->site, 6);
    u64 discharge = last_pond_row(&m->site)[2], half = half_step(&m->site);
    for (unsigned which = 0; which < 64; which++) {
        for (size_t k = 0; k < 6; k++) {
            m->found.outflow[k] = which >> k & 1 ? discharge : (k + which) % 3 * discharge / 3;
            m->found.storage[k] = half * m->found.outflow[k] + k;
        }
        take_rows("equal peaks", m);
    }
}

/* ---- Limits of 17 */

static void states_at_limits(struct mark *m, size_t k)
{
    u64 discharge = last_pond_row(&m->site)[2], half = half_step(&m->site), top = pond_top(&m->site);
    const u64 outflows[] = { 0, 1, discharge, discharge + 1, MOST, MOST / half, MOST / half + 1 };
    u64 outflow = m->found.outflow[k];
    for (size_t i = 0; i < COUNT(outflows); i++) {
        u64 least = half * outflows[i];
        const u64 storages[] = { 0,   least,   least - 1, least + 1, top - least, top - least + 1, top - least - 1,
                                 top, top + 1, MOST,      0 - least, 1 - least };
        m->found.outflow[k] = outflows[i];
        for (size_t j = 0; j < COUNT(storages); j++)
            take_with("a row at the limits of 17", m, &m->found.storage[k], storages[j]);
    }
    m->found.outflow[k] = outflow;
}

static void rows_at_limits(struct mark *m, struct prng *r)
{
    start_mark(m, r);
    for (int where = 0; where < 3; where++)
        for (int asked = 0; asked < 3; asked++) {
            m->row = place(asked, 12) + 1;
            states_at_limits(m, place(where, 12));
        }
}

static void two_bad_rows(struct mark *m, struct prng *r)
{
    start_mark(m, r);
    for (size_t one = 0; one < 12; one++)
        for (size_t two = 0; two < 12; two++) {
            u64 was = m->found.storage[one];
            m->row = (one + two) % 12 + 1;
            m->found.storage[one] = MOST;
            take_with("two bad rows", m, &m->found.outflow[two], 10000001);
            m->found.storage[one] = was;
        }
}

/* ---- Numbers that a double must hold */

static void great_numbers(struct mark *m, struct prng *r)
{
    static const u64 steps[] = { 60, 62, 120, 300, 1798, 3600 };
    static const size_t rows[] = { 1, 2, 12, 1999, 2000 };
    for (size_t i = 0; i < COUNT(steps); i++)
        for (size_t j = 0; j < COUNT(rows); j++) {
            u64 last = BT_LAST_ROW_NUMBER - rows[j] + 1;
            const u64 firsts[] = { 0, 1, last - 1, last, last + 1, MOST, MOST - rows[j] + 1, MOST - rows[j] + 2 };
            start_mark(m, r);
            m->site.step = steps[i];
            set_rows(&m->site, rows[j]);
            forge_states(&m->site, &m->found, r);
            for (size_t k = 0; k < COUNT(firsts); k++) {
                m->row = place((int)k % 3, rows[j]) + 1;
                take_with("row numbers at their limit", m, &m->site.first, firsts[k]);
            }
        }
}

/* The greatest stage, storage and discharge that there are. */
static void greatest_pond(struct mark *m, struct prng *r)
{
    static const u64 pond[] = { 0, 0, 0, 1000000, 1000000000000, 10000000 };
    start_mark(m, r);
    m->site.step = 3600;
    m->site.pond.len = COUNT(pond);
    memcpy(m->site.pond.at, pond, sizeof pond);
    for (size_t k = 0; k < 12; k++) {
        m->found.outflow[k] = 10000000 - k % 3;
        m->found.storage[k] = 1000000000000 - k % 2;
    }
    take_rows("the greatest numbers", m);
}

/* ---- Lengths, and what is not read */

static void lengths(struct mark *m, struct prng *r)
{
    static const size_t lengths[] = { 0, 1, 2, 11, 12, 13, 1999, 2000, 2001, 2002, ROOM };
    start_mark(m, r);
    for (size_t i = 0; i < COUNT(lengths); i++) {
        size_t rows = lengths[i], other = rows == ROOM ? rows - 1 : rows + 1;
        for (int which = 0; which < 8; which++) {
            m->site.inflow = which & 1 ? other : rows;
            m->site.outflow = which & 2 ? other : rows;
            m->site.storage = which & 4 ? other : rows;
            m->row = which % 3;
            take_mark("lengths of the row lists", m);
        }
    }
}

static void inflow_not_read(struct mark *m, struct prng *r)
{
    for (int i = 0; i < 5; i++) {
        start_mark(m, r);
        for (size_t k = 0; k < 12; k++)
            m->found.inflow[k] = nasty(r, MOST);
        take_rows("any inflow", m);
    }
}

/* ---- Two faults at once, in the order of a mark */

static const int ORDER[] = { 1, 2, 4, 12, 13, 18, 17 };

static void make_fault(struct mark *m, int number, int where)
{
    if (number == BT_REFUSED_ASKED)
        m->row = where == 0 ? 0 : where == 1 ? 13 : MOST;
    else if (number == BT_REFUSED_STANDING)
        *(where == 0 ? &m->found.outflow[0] : &m->found.storage[place(where, 12)]) = MOST - 18000000;
    else
        fault_of(&m->site, number, where);
}

static void two_faults(struct mark *m, struct prng *r)
{
    for (size_t one = 0; one < COUNT(ORDER); one++)
        for (size_t two = one; two < COUNT(ORDER); two++)
            for (int where = 0; where < 9; where++) {
                start_mark(m, r);
                m->row = 6;
                make_fault(m, ORDER[two], where / 3);
                make_fault(m, ORDER[one], where % 3);
                take_mark("two faults of a mark", m);
            }
}

/* Faults that a study has and no mark looks for. */
static void faults_of_studies(struct mark *m, struct prng *r)
{
    static const int numbers[] = { 20, 3, 19, 5, 6, 7, 8, 9 };
    for (size_t i = 0; i < COUNT(numbers); i++)
        for (int where = 0; where < 3; where++) {
            start_mark(m, r);
            m->row = place(where, 12) + 1;
            fault_of(&m->site, numbers[i], where);
            take_mark("a fault of the rule, the rain or the subareas", m);
        }
}

void chosen_marks(u64 seed)
{
    static struct mark m;
    static void (*const all[])(struct mark *, struct prng *) = {
        rows_of_studies, forged_rows,   empty_rows,      equal_peaks, rows_at_limits, two_bad_rows, great_numbers,
        greatest_pond,   lengths,       inflow_not_read, two_faults,  faults_of_studies,
    };
    for (size_t i = 0; i < COUNT(all); i++) {
        struct prng r = prng_of(seed, 2000 + i);
        all[i](&m, &r);
    }
}
