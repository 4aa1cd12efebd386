#include "greatest.h"

#include "dry.h"

/* Sheet flow, a channel, and as long at a given velocity as makes 512 weights. */
static void set_path(u64 *record)
{
    u64 *sheet = segment_at(record, 0), *channel = segment_at(record, 1);
    set_segment(sheet, GOOD_SEGMENT[BT_SEGMENT_SHEET]);
    set_segment(channel, GOOD_SEGMENT[BT_SEGMENT_CHANNEL]);
    record[BT_SEGMENT_COUNT] = 2;
    add_time(record, 10190 - reference_segment(sheet) - reference_segment(channel)); /* Tp 6,144 at a step of 60 */
}

static void set_patches(u64 *record, u64 cover, u64 soil, u64 area)
{
    record[BT_PATCH_COUNT] = BT_MOST_PATCHES;
    for (size_t i = 0; i < BT_MOST_PATCHES; i++) {
        patch_at(record, i)[0] = cover;
        patch_at(record, i)[1] = soil;
        patch_at(record, i)[2] = area;
    }
}

/* Before entry 'changed' too little for any runoff but from pavement; then much, to the last row. */
static void set_rain(struct site *s, size_t changed)
{
    s->rain.len = BT_MOST_ROWS + 1;
    for (size_t t = 0; t < s->rain.len; t++)
        s->rain.at[t] = t < changed ? 400 * t / BT_MOST_ROWS : 3000 + 27000 * (t - changed) / BT_MOST_ROWS;
}

/* The first subarea is grass, which the edit makes more, on soil that takes less water in; the others are pavement. */
static void set_list(struct edit *e)
{
    e->site.subareas.len = BT_WIDTH * BT_MOST_SUBAREAS;
    for (size_t i = 0; i < BT_MOST_SUBAREAS; i++) {
        set_patches(record_at(&e->site, i), i == 0 ? 3 : 4, 2, 1000);
        set_path(record_at(&e->site, i));
    }
    keep_record(e);
    set_patches(e->fresh, 3, 3, 5000);
}

/* The search of the edit in a pond that holds all. Gives whether it changes this row first. */
static bool search(struct dry *d, const struct edit *e, size_t changed)
{
    static struct columns rows;
    const struct site *s = &e->site;
    u64 answer[BT_EDIT_ANSWER_LENGTH];
    int64_t changes[BT_CHANGES_LENGTH];
    rows = e->found;
    u64 gave = reference_edit(s->step, s->first, s->rule, s->rain.at, s->rain.len, s->subareas.at, s->subareas.len,
                              s->pond.at, s->pond.len, rows.inflow, s->inflow, rows.outflow, s->outflow, rows.storage,
                              s->storage, e->place, e->fresh, answer, changes);
    if (gave != 0 || answer[BT_CHANGED] != changed)
        return false;
    dry_edit(d, e, &rows, changed - 1);
    return true;
}

bool greatest_edit(struct edit *e, size_t changed, enum pond pond)
{
    static struct dry d;
    *e = (struct edit){ .site = { .step = 60, .first = 1, .rule = BT_RULE_WINTR55 }, .place = 1 };
    set_rows(&e->site, BT_MOST_ROWS);
    set_rain(&e->site, changed);
    set_list(e);
    open_pond(&e->site, BT_MOST_POND_ROWS, 100000);
    if (stand(e) != 0 || !search(&d, e, changed))
        return false;
    u64 needed = greatest_x(&d);
    if (pond == AMPLE)
        return blocks_run(&d, pond_top(&e->site)) == 0;
    return blocks_run(&d, needed) == blocks_of(&d) && cut_pond_at(&e->site, pond == TIGHT ? needed : needed - 1) &&
           stand(e) == 0;
}
