#include "found.h"

u64 half_step(const struct site *s)
{
    return s->step / 2;
}

const u64 *last_pond_row(const struct site *s)
{
    return s->pond.at + s->pond.len - BT_POND_WIDTH;
}

u64 pond_top(const struct site *s)
{
    return last_pond_row(s)[1] + half_step(s) * last_pond_row(s)[2];
}

u64 study_rows(const struct site *s, struct columns *rows)
{
    u64 answer[BT_ANSWER_LENGTH];
    return reference_study(s->step, s->first, s->rule, s->rain.at, s->rain.len, s->subareas.at, s->subareas.len,
                           s->pond.at, s->pond.len, rows->inflow, s->inflow, rows->outflow, s->outflow, rows->storage,
                           s->storage, answer);
}

u64 up_to(struct prng *r, u64 most)
{
    return chance(r, 15) ? 0 : chance(r, 15) ? most : between(r, 0, most);
}

void forge_states(const struct site *s, struct columns *rows, struct prng *r)
{
    u64 top = pond_top(s), half = half_step(s), discharge = last_pond_row(s)[2];
    for (size_t k = 0; k < s->outflow; k++) {
        u64 outflow = up_to(r, discharge / (chance(r, 50) ? 1 : 4));
        rows->outflow[k] = outflow;
        rows->storage[k] = half * outflow + up_to(r, (top - 2 * half * outflow) / (chance(r, 50) ? 1 : 4));
    }
}

void scrawl(struct columns *rows, struct prng *r)
{
    for (size_t k = 0; k < ROOM; k++) {
        rows->inflow[k] = nasty(r, k);
        rows->outflow[k] = nasty(r, k);
        rows->storage[k] = nasty(r, k);
    }
}

static void spoil_outflow(const struct site *s, u64 *at, struct prng *r)
{
    u64 most = last_pond_row(s)[2], wraps = UINT64_MAX / half_step(s) + 1;
    const u64 values[] = { most, most + 1, wraps, UINT64_MAX, (u64)1 << 63, nasty(r, most) };
    *at = values[below(r, 6)];
}

/* At and beside h times outflow, what is left of the last X_i, and what makes a sum of 64 bits wrap. */
static void spoil_storage(const struct site *s, u64 outflow, u64 *at, struct prng *r)
{
    u64 least = half_step(s) * outflow, most = pond_top(s) - least;
    const u64 values[] = { least, least - 1, most, most + 1, 0 - least, UINT64_MAX, nasty(r, most) };
    *at = values[below(r, 7)];
}

void spoil_state(const struct site *s, struct columns *rows, size_t k, struct prng *r)
{
    if (chance(r, 50))
        spoil_outflow(s, &rows->outflow[k], r);
    else
        spoil_storage(s, rows->outflow[k], &rows->storage[k], r);
}
