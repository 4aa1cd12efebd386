#include "edit.h"

#include <string.h>

static const u64 MOST_INFLOW = 217800000000u;

/* ---- Parts */

static bool place_listed(const struct edit *e)
{
    return 1 <= e->place && e->place <= subarea_count(&e->site);
}

u64 *old_record(struct edit *e)
{
    return record_at(&e->site, place_listed(e) ? e->place - 1 : 0);
}

/* ---- Rows as found */

u64 stand(struct edit *e)
{
    return study_rows(&e->site, &e->found);
}

/* The old record's parts; none where the place is not in the list. */
static void old_parts(const struct edit *e, u64 *parts)
{
    const struct site *s = &e->site;
    memset(parts, 0, s->inflow * sizeof *parts);
    if (place_listed(e))
        reference_parts(s->step, s->rain.at, s->rain.len, s->subareas.at + BT_WIDTH * (e->place - 1), parts, s->inflow);
}

void forge(struct edit *e, struct prng *r)
{
    u64 parts[ROOM], few = pond_top(&e->site) / (2 * e->site.inflow) + 1, most = chance(r, 30) ? MOST_INFLOW / 2 : few;
    old_parts(e, parts);
    forge_states(&e->site, &e->found, r);
    for (size_t k = 0; k < e->site.inflow; k++)
        e->found.inflow[k] = parts[k] + up_to(r, most);
}

static void spoil_inflow(struct edit *e, size_t k, struct prng *r)
{
    u64 parts[ROOM];
    old_parts(e, parts);
    const u64 values[] = { parts[k], parts[k] - 1, 0, MOST_INFLOW, MOST_INFLOW + 1, UINT64_MAX, nasty(r, parts[k]) };
    e->found.inflow[k] = values[below(r, 7)];
}

void spoil_row(struct edit *e, struct prng *r)
{
    size_t k = below(r, e->site.inflow);
    if (chance(r, 34))
        spoil_inflow(e, k, r);
    else
        spoil_state(&e->site, &e->found, k, r);
}

/* ---- The new record */

void keep_record(struct edit *e)
{
    memcpy(e->fresh, old_record(e), sizeof e->fresh);
}

/* What the altered list may take up in this place. */
static u64 free_area(struct edit *e)
{
    struct site one = { .subareas.len = BT_WIDTH };
    memcpy(one.subareas.at, old_record(e), BT_WIDTH * sizeof(u64));
    u64 others = total_area(&e->site) - total_area(&one);
    return others >= 200000 - BT_MOST_PATCHES ? BT_MOST_PATCHES : 200000 - others;
}

/* Any but the kind and the length, also a spare one. */
static u64 *segment_number(u64 *record, struct prng *r)
{
    return some_segment(record, r) + between(r, BT_LENGTH_AT + 1, BT_SEGMENT_WIDTH - 1);
}

void random_fresh(struct edit *e, struct prng *r)
{
    u64 room = free_area(e), most = chance(r, 80) ? room / 16 + BT_MOST_PATCHES : room;
    bool steady = 60 <= e->site.step && e->site.step <= 3600; /* else no path fits it */
    keep_record(e);
    switch (below(r, steady ? 9 : 5)) {
    case 0: break;
    case 1: some_patch(e->fresh, r)[0] = between(r, 1, 22); break;
    case 2: some_patch(e->fresh, r)[2] += chance(r, 50) ? 1 : 2; break;
    case 3: *segment_number(e->fresh, r) += between(r, 1, 20); break;
    case 4: random_patches(e->fresh, r, between(r, 1, BT_MOST_PATCHES), most); break;
    case 5: fitting_path(&e->site, e->fresh, r); break;
    default: fitting_record(&e->site, e->fresh, r, most); break;
    }
}

/* One patch that takes up all that is left, or one more, or one less. */
static void fill_area(struct edit *e, struct prng *r)
{
    random_patches(e->fresh, r, 1, 1);
    patch_at(e->fresh, 0)[2] = free_area(e) + below(r, 3) - 1;
}

void hostile_fresh(struct edit *e, struct prng *r)
{
    random_fresh(e, r);
    switch (below(r, 4)) {
    case 0: spoil_time(&e->site, e->fresh, r); break;
    case 1: fill_area(e, r); break;
    default: spoil_record(&e->site, e->fresh, r); break;
    }
}

/* ---- Whole edits */

static u64 random_place(const struct site *s, struct prng *r)
{
    u64 count = subarea_count(s);
    const u64 others[] = { 0,          count + 1, count + 2, ((u64)1 << 32) + 1, UINT64_MAX / BT_WIDTH + 2,
                           UINT64_MAX, nasty(r, 1) };
    return count == 0 || chance(r, 4) ? others[below(r, 7)] : between(r, 1, count);
}

static void find_rows(struct edit *e, struct prng *r)
{
    u64 refusal = stand(e);
    if (refusal != 0 && refusal != BT_REFUSED_FULL) {
        scrawl(&e->found, r);
        return;
    }
    if (refusal != 0 || chance(r, 40))
        forge(e, r);
    for (u64 n = chance(r, 70) ? 0 : between(r, 1, 3); n > 0; n--)
        spoil_row(e, r);
}

void edit_of(struct edit *e, const struct site *s, struct prng *r)
{
    e->site = *s;
    e->place = random_place(s, r);
    find_rows(e, r);
    if (chance(r, 90))
        random_fresh(e, r);
    else
        hostile_fresh(e, r);
}

void altered_site(struct site *to, const struct edit *e)
{
    *to = e->site;
    if (place_listed(e))
        memcpy(record_at(to, e->place - 1), e->fresh, sizeof e->fresh);
}
