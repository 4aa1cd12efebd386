#include "mark.h"

#include <string.h>

/* Whether marks of these rows are accepted, but for the row asked. */
static bool accepted(const struct mark *m)
{
    const struct site *s = &m->site;
    u64 answer[BT_MARK_ANSWER_LENGTH], values[BT_VALUES_LENGTH];
    return reference_mark(s->step, s->first, s->pond.at, s->pond.len, s->inflow, m->found.outflow, s->outflow,
                          m->found.storage, s->storage, 1, answer, values) == 0;
}

static void clear_rows(struct mark *m)
{
    memset(&m->found, 0, sizeof m->found);
}

/* A level of equal outflows that ends the rows or stands in them. */
static void level_rows(struct mark *m, struct prng *r)
{
    size_t rows = m->site.inflow, from = below(r, rows), to = between(r, from, rows - 1);
    for (size_t k = from; k <= to; k++) {
        m->found.outflow[k] = m->found.outflow[from];
        m->found.storage[k] = m->found.storage[from];
    }
}

/* Pond and lengths that no mark is accepted with: any rows will do. */
static void find_rows(struct mark *m, struct prng *r)
{
    clear_rows(m);
    if (!accepted(m)) {
        scrawl(&m->found, r);
        return;
    }
    if (chance(r, 10))
        return;
    if (chance(r, 40) || study_rows(&m->site, &m->found) != 0)
        forge_states(&m->site, &m->found, r);
    if (chance(r, 40))
        level_rows(m, r);
    if (chance(r, 30))
        spoil_state(&m->site, &m->found, below(r, m->site.inflow), r);
    for (size_t k = 0; k < m->site.inflow && chance(r, 50); k++)
        m->found.inflow[k] = nasty(r, k); /* which no mark reads */
}

static u64 first_peak(const struct mark *m)
{
    u64 peak = 1;
    for (size_t k = 2; k <= m->site.outflow; k++)
        if (m->found.outflow[k - 1] > m->found.outflow[peak - 1])
            peak = k;
    return peak;
}

static u64 random_row(const struct mark *m, struct prng *r)
{
    u64 rows = m->site.inflow, peak = first_peak(m);
    const u64 wrong[] = { 0, rows + 1, rows + 2, UINT64_MAX, ((u64)1 << 32) + 1, nasty(r, rows) };
    switch (below(r, 10)) {
    case 0: return wrong[below(r, 6)];
    case 1:
    case 2: return peak;
    case 3: return peak + 1;
    default: return rows == 0 ? 0 : between(r, 1, rows);
    }
}

void mark_of(struct mark *m, const struct site *s, struct prng *r)
{
    m->site = *s;
    find_rows(m, r);
    m->row = random_row(m, r);
}
