/*
 * The inflow rows in the textbook's way: of each rain step the runoff that it adds, times each weight, is a piece, and
 * the pieces are laid into the rows. With the sums of reference.c this has runoff, weight, the composite and the times
 * in common; the rest it works for itself.
 */
#include <string.h>

#include "rules.h"

/* One subarea's. Weight j stands at j, what is laid into row k at k - 1. */
struct pieces {
    u64 weights, total, weight[MOST_WEIGHTS + 1];
    wide laid[MOST_ROWS];
};

static void find_weights(struct pieces *p, u64 step, u64 peak)
{
    p->total = 0;
    p->weights = 5 * peak / step;
    for (u64 j = 1; j <= p->weights; j++) {
        p->weight[j] = reference_weight(peak, step, j);
        p->total += p->weight[j];
    }
}

/* The pieces of rain step t, which is of row t: weight j puts its own j - 1 rows later, where there is such a row. */
static void lay_step(struct pieces *p, u64 t, u64 added, u64 m)
{
    for (u64 j = 1; j <= p->weights && t + j - 1 <= m; j++)
        p->laid[t + j - 2] += (wide)added * p->weight[j];
}

static void lay_steps(struct pieces *p, u64 tenths, const u64 *rain, size_t rain_len, u64 m)
{
    memset(p->laid, 0, m * sizeof *p->laid);
    for (u64 t = 1; t < rain_len; t++)
        lay_step(p, t, reference_runoff(tenths, rain[t]) - reference_runoff(tenths, rain[t - 1]), m);
}

static u64 area_of(const u64 *record)
{
    u64 area = 0;
    for (const u64 *patch = record + PATCHES_AT; patch < record + PATCHES_AT + PATCH_WIDTH * record[0];
         patch += PATCH_WIDTH)
        area += patch[2];
    return area;
}

/* What is rounded, down, is the depth and the volume of all that is laid up to a row, and not a row's own. */
static void add_pieces(const struct pieces *p, u64 area, u64 *rows, u64 m)
{
    wide sum = 0, before = 0;
    for (u64 k = 1; k <= m; k++) {
        sum += p->laid[k - 1];
        wide volume = (wide)363 * area * (sum / p->total) / 10000;
        rows[k - 1] += (u64)(volume - before);
        before = volume;
    }
}

void reference_textbook(u64 step, const u64 *rain, size_t rain_len, const u64 *subareas, size_t subareas_len, u64 *rows,
                        size_t m)
{
    static struct pieces p;
    memset(rows, 0, m * sizeof *rows);
    for (const u64 *record = subareas; record < subareas + subareas_len; record += WIDTH) {
        find_weights(&p, step, reference_peak(step, reference_concentration(record)));
        lay_steps(&p, reference_tenths(record), rain, rain_len, m);
        add_pieces(&p, area_of(record), rows, m);
    }
}
