/* 'Chart marks' of document 01. */
#include <string.h>

#include "rules.h"

/* 1, 2, 4, 12, 13, 18, 17; each over all rows. */
static struct refusal mark_refusal(const struct lent *s, const u64 *outflow, const u64 *storage, u64 row)
{
    static check *const checks[] = { check_rows, check_step, check_last_number, pond_checks };
    struct refusal r = first_of(checks, 4, s);
    if (r.number == 0)
        r = refuse(!within(row, 1, s->inflow_len), 18, 0);
    return r.number != 0 ? r : check_standing(s, outflow, storage);
}

/* The first row that has the greatest outflow, from 1. */
static u64 peak_row(const u64 *outflow, size_t m)
{
    u64 peak = 1;
    for (size_t k = 2; k <= m; k++)
        if (outflow[k - 1] > outflow[peak - 1])
            peak = k;
    return peak;
}

/* None when its outflow is 0; a peak with outflow and stage for the peak row; else an outflow. */
static u64 kind_of(u64 outflow, bool peak)
{
    return outflow == 0 ? 0 : peak ? 2 : 1;
}

u64 reference_mark(u64 step, u64 first, const u64 *pond, size_t pond_len, size_t inflow_len, const u64 *outflow,
                   size_t outflow_len, const u64 *storage, size_t storage_len, u64 row, u64 *answer, u64 *values)
{
    struct lent s = { .step = step, .first = first, .pond = pond, .pond_len = pond_len, .inflow_len = inflow_len,
                      .outflow_len = outflow_len, .storage_len = storage_len };
    struct refusal r = mark_refusal(&s, outflow, storage, row);
    memset(values, 0, 5 * sizeof *values);
    answer[0] = r.number;
    answer[1] = r.place;
    answer[2] = 0;
    if (r.number != 0)
        return r.number;
    u64 flow = outflow[row - 1], half = step / 2;
    answer[2] = kind_of(flow, row == peak_row(outflow, outflow_len));
    values[0] = flow;
    values[1] = answer[2] == 2 ? stage_at(pond, half, (wide)storage[row - 1] + (wide)half * flow) : 0;
    values[2] = first + row - 1;
    values[3] = row * step;
    values[4] = flow;
    return 0;
}
