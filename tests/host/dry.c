#include "dry.h"

#include <string.h>

static size_t least(size_t a, size_t b)
{
    return a < b ? a : b;
}

/* ---- How the search goes */

static u64 record_inflow(const struct site *s, const u64 *record)
{
    u64 area = 0;
    for (u64 i = 0; i < record[BT_PATCH_COUNT]; i++)
        area += record[BT_PATCHES + BT_PATCH_WIDTH * i + 2];
    return reference_volume(area, reference_runoff(reference_tenths(record), s->rain.at[s->rain.len - 1]));
}

u64 all_inflow(const struct site *s)
{
    u64 all = 0;
    for (size_t i = 0; i < subarea_count(s); i++)
        all += record_inflow(s, s->subareas.at + BT_WIDTH * i);
    return all;
}

/* What the next row's X has from the rows before it. */
static u64 held_before(const struct site *s, const struct columns *rows, size_t k)
{
    return k == 0 ? 0 : rows->storage[k - 1] - half_step(s) * rows->outflow[k - 1];
}

static void run_dry(struct dry *d, const struct site *s, const struct columns *rows, size_t from, u64 to_come)
{
    d->from = from;
    d->rows = s->inflow;
    for (size_t k = from; k < d->rows; k++) {
        d->most[k] = held_before(s, rows, k) + to_come;
        d->x[k] = held_before(s, rows, k) + rows->inflow[k];
        to_come -= rows->inflow[k];
    }
    d->most[d->rows] = held_before(s, rows, d->rows) + to_come;
}

void dry_study(struct dry *d, const struct site *s, const struct columns *rows)
{
    run_dry(d, s, rows, 0, all_inflow(s));
}

/* What can still come: the rows as found without the old record's parts, and all that runs off the new one, less what
   came in before. */
void dry_edit(struct dry *d, const struct edit *e, const struct columns *rows, size_t from)
{
    u64 parts[ROOM], to_come = record_inflow(&e->site, e->fresh);
    const struct site *s = &e->site;
    reference_parts(s->step, s->rain.at, s->rain.len, s->subareas.at + BT_WIDTH * (e->place - 1), parts, s->inflow);
    for (size_t k = 0; k < s->inflow; k++)
        to_come += e->found.inflow[k] - parts[k];
    for (size_t k = 0; k < from; k++)
        to_come -= e->found.inflow[k];
    run_dry(d, s, rows, from, to_come);
}

size_t blocks_of(const struct dry *d)
{
    return (d->rows - d->from + BLOCK - 1) / BLOCK;
}

size_t block_start(const struct dry *d, size_t block)
{
    return least(d->from + BLOCK * block, d->rows);
}

size_t blocks_run(const struct dry *d, u64 top)
{
    size_t block = 0;
    while (block_start(d, block) < d->rows && d->most[block_start(d, block)] > top)
        block++;
    return block;
}

u64 greatest_x(const struct dry *d)
{
    u64 most = 0;
    for (size_t k = d->from; k < d->rows; k++)
        most = d->x[k] > most ? d->x[k] : most;
    return most;
}

/* ---- Ponds */

static const u64 MOST_STORAGE = 1000000000000u, MOST_DISCHARGE = 10000000u;

static void set_pond_row(struct site *s, size_t i, u64 storage, u64 discharge)
{
    u64 *row = pond_row_at(s, i);
    row[0] = 100 * i;
    row[1] = storage;
    row[2] = discharge;
}

void open_pond(struct site *s, size_t rows, u64 discharge)
{
    size_t steps = rows - 2;
    u64 low = half_step(s) * discharge + steps;
    s->pond.len = BT_POND_WIDTH * rows;
    for (size_t i = 0; i <= steps; i++)
        set_pond_row(s, i, low * i / steps, discharge * i / steps);
    set_pond_row(s, rows - 1, MOST_STORAGE, discharge);
}

bool cut_pond_at(struct site *s, u64 top)
{
    u64 *last = pond_row_at(s, pond_rows(s) - 1), out = half_step(s) * last[2];
    if (top <= out || top - out <= last[1 - BT_POND_WIDTH] || top - out > MOST_STORAGE)
        return false;
    last[1] = top - out;
    return true;
}

/* Storage stays at least h times discharge: that is a whole number, so that rounding storage down does not pass it. */
void scale_pond(struct site *s, const struct list *pond, u64 capacity)
{
    u64 whole = pond->at[pond->len - 2];
    s->pond = *pond;
    for (size_t i = 0; i < pond_rows(s); i++) {
        u64 *row = pond_row_at(s, i), discharge = (u64)((wide)row[2] * capacity / whole);
        row[1] = (u64)((wide)row[1] * capacity / whole);
        row[2] = discharge < MOST_DISCHARGE ? discharge : MOST_DISCHARGE;
    }
}
