#include "aims.h"

#include <string.h>

#include "dry.h"
#include "take.h"
#include "tally.h"

#define COUNT(a) (sizeof(a) / sizeof *(a))

static const size_t ROWS[] = { 1, 2, 30, BLOCK, BLOCK + 1, 2 * BLOCK, 2 * BLOCK + 1, 10 * BLOCK, 10 * BLOCK + 1 };

/* ---- Sites to start from: a step of 300, at which a subarea has 6 weights or more, up to 362 */

static const u64 STEP = 300, LEAST_WEIGHTS = 6;

static void set_weights(u64 *record, u64 weights)
{
    set_concentration(record, concentration_of(STEP, (weights * STEP + 4) / 5));
}

static void set_patch(u64 *record, u64 cover, u64 soil, u64 area)
{
    record[BT_PATCH_COUNT] = 1;
    patch_at(record, 0)[0] = cover;
    patch_at(record, 0)[1] = soil;
    patch_at(record, 0)[2] = area;
}

enum { GRASS = 3, PAVED = 4 }; /* of grass, little rain runs off; of pavement, nearly all */

/* Three subareas, the first of this many weights, one of the fewest that there may be, and one of more. */
static void start_site(struct site *s, struct prng *r, size_t rows, u64 weights)
{
    *s = (struct site){ .step = STEP, .first = 1, .rule = BT_RULE_TR55 };
    set_rows(s, rows);
    s->subareas.len = 3 * BT_WIDTH;
    for (size_t i = 0; i < 3; i++) {
        litter(record_at(s, i), r);
        set_patch(record_at(s, i), i == 0 ? GRASS : PAVED, 4, between(r, 5000, 30000));
        set_weights(record_at(s, i), i == 0 ? weights : i == 1 ? LEAST_WEIGHTS : 2 * weights + 3);
    }
}

/* n steps of rain, each of which rises. */
static void set_rain(struct site *s, struct prng *r, size_t n)
{
    s->rain.len = n + 1;
    s->rain.at[0] = 0;
    for (size_t t = 1; t <= n; t++)
        s->rain.at[t] = s->rain.at[t - 1] + (n < 8 ? between(r, 2000, BT_MOST_RISE) : between(r, 1, 60000 / n / 2 - 1));
}

/* None at all, and about so much that all the water that can come leaves in eight times as long as the rows last, in
   twice as long, in as long. */
static u64 discharge_of(const struct site *s, size_t which)
{
    static const u64 times[] = { 8, 2, 1 };
    return which == 0 ? 0 : all_inflow(s) / (s->step * s->inflow * times[which - 1]) + 1;
}

enum { DISCHARGES = 4 };

static size_t last_with_inflow(const struct columns *rows, size_t count)
{
    while (count > 1 && rows->inflow[count - 1] == 0)
        count--;
    return count;
}

/* ---- Last X_i to be tried: beside what the pond holds and all that can still come, before each block and after the
   last; at and just below the X of some rows, from the first to the last with inflow; and beside the greatest X */

enum { MOST_TOPS = 3 * (2 + BT_MOST_ROWS / BLOCK) + 2 * 9 };

struct tops {
    size_t count;
    u64 at[MOST_TOPS];
};

static void add_beside(struct tops *t, u64 value, u64 above)
{
    for (u64 less = 0; less < 2 + above; less++)
        t->at[t->count++] = value + above - less;
}

static void find_tops(struct tops *t, const struct dry *d, const struct columns *rows)
{
    size_t last = last_with_inflow(rows, d->rows), length = last > d->from ? last - d->from : 1;
    const size_t some[] = { 0, 1, length / 4, length / 3, length / 2, length * 2 / 3, length - 1 };
    t->count = 0;
    for (size_t block = 0; block <= blocks_of(d); block++)
        add_beside(t, d->most[block_start(d, block)], 1);
    for (size_t i = 0; i < COUNT(some); i++)
        if (d->from + some[i] < d->rows)
            add_beside(t, d->x[d->from + some[i]], 0);
    add_beside(t, greatest_x(d), 0);
}

/* ---- Studies */

static void take_aimed(struct site *s)
{
    count_aimed_study(s, take_study("a study aimed at its search for 14", s));
}

static void aim_study(struct site *s, size_t pond_rows, u64 discharge)
{
    static struct columns rows;
    static struct dry d;
    static struct tops t;
    open_pond(s, pond_rows, discharge);
    if (study_rows(s, &rows) != 0)
        return;
    dry_study(&d, s, &rows);
    find_tops(&t, &d, &rows);
    for (size_t i = 0; i < t.count; i++)
        if (cut_pond_at(s, t.at[i]))
            take_aimed(s);
}

/* Rain of one step, shorter than the weights, as long, longer, and up to the last row. */
static void aim_studies(struct site *s, struct prng *r, size_t rows, u64 weights)
{
    const size_t rain[] = { 1, weights - 1, weights, weights + 1, 3 * weights, rows };
    for (size_t i = 0; i < COUNT(rain); i++)
        for (size_t which = 0; which < DISCHARGES && rain[i] <= rows; which++) {
            start_site(s, r, rows, weights);
            set_rain(s, r, rain[i]);
            aim_study(s, which % 2 == 0 ? 3 : 8, discharge_of(s, which));
        }
}

static void aimed_studies(struct prng *r)
{
    static const u64 weights[] = { 6, 15, 60 };
    static struct site s;
    for (size_t i = 0; i < COUNT(ROWS); i++)
        for (size_t j = 0; j < COUNT(weights); j++)
            aim_studies(&s, r, ROWS[i], weights[j]);
}

/* ---- Edits of the first subarea */

/* Rain that is too little for grass before row 'changed', from 1, and much from there on; to the last row, or for a few
   steps. */
static void set_late_rain(struct site *s, size_t changed, size_t n)
{
    s->rain.len = n + 1;
    for (size_t t = 0; t <= n; t++)
        s->rain.at[t] = t < changed ? 400 * t / changed : 3900 + 20000 * (t - changed) / (n + 8);
}

/* Grass that lets little run off for grass that lets more; of a larger area where 'grown', so that the pond needs more
   than the rows as found do. */
static void start_edit(struct edit *e, struct prng *r, size_t rows, size_t changed, size_t n, bool grown)
{
    static const u64 weights[] = { 6, 15, 60 };
    *e = (struct edit){ .place = 1 };
    start_site(&e->site, r, rows, weights[below(r, 3)]);
    set_patch(old_record(e), GRASS, 3, grown ? 10 : 9000);
    for (size_t i = 1; i < 3; i++)
        patch_at(record_at(&e->site, i), 0)[2] = grown ? 1 : 2000;
    set_late_rain(&e->site, changed, n);
    keep_record(e);
    set_patch(e->fresh, GRASS, 4, grown ? 60000 : 10000);
    if (chance(r, 50))
        set_weights(e->fresh, weights[below(r, 3)]);
}

/* Rows that stand in the pond, held to a new study, too; where it does not hold them, rows with no water in them. */
static void take_aimed_edit(struct edit *e)
{
    static const char *const kind = "an edit aimed at its search for 14";
    u64 figures[BT_ANSWER_LENGTH];
    if (stand(e) == 0) {
        memcpy(figures, take_study(kind, &e->site)->answer, sizeof figures);
        count_aimed_edit(e, take_standing(kind, e, figures));
        return;
    }
    memset(e->found.outflow, 0, sizeof e->found.outflow);
    memset(e->found.storage, 0, sizeof e->found.storage);
    count_aimed_edit(e, take_edit(kind, e));
}

static void aim_edit(struct edit *e, size_t pond_rows, u64 discharge)
{
    static struct result due;
    static struct dry d;
    static struct tops t;
    open_pond(&e->site, pond_rows, discharge);
    if (stand(e) != 0)
        return;
    edit_due(&due, e);
    if (due.gave != 0)
        return;
    dry_edit(&d, e, &due.rows, due.answer[BT_CHANGED] == 0 ? e->site.inflow : due.answer[BT_CHANGED] - 1);
    find_tops(&t, &d, &due.rows);
    for (size_t i = 0; i < t.count; i++)
        if (cut_pond_at(&e->site, t.at[i]))
            take_aimed_edit(e);
}

/* A discharge by what the list has after the edit. */
static u64 edit_discharge(const struct edit *e, size_t which)
{
    static struct site after;
    altered_site(&after, e);
    return discharge_of(&after, which);
}

static void aim_edits(struct edit *e, struct prng *r, size_t rows, size_t changed, size_t n)
{
    for (size_t which = 0; which < DISCHARGES; which++)
        for (int grown = 0; grown < 2; grown++) {
            start_edit(e, r, rows, changed, n, grown);
            aim_edit(e, which % 2 == 0 ? 3 : 8, edit_discharge(e, which));
        }
}

/* The first changed row: the first, beside the ends of blocks, in a later block, the last. Rain to the last row, or a
   few steps of it. */
static void aimed_edits(struct prng *r)
{
    static struct edit e;
    for (size_t i = 0; i < COUNT(ROWS); i++) {
        size_t m = ROWS[i];
        const size_t changed[] = { 1, 2, BLOCK, BLOCK + 1, BLOCK + 2, 2 * BLOCK, 5 * BLOCK + 7, m - 1, m };
        for (size_t j = 0; j < COUNT(changed); j++) {
            size_t a = changed[j];
            if (a < 1 || a > m)
                continue;
            aim_edits(&e, r, m, a, m);
            if (a + 3 < m)
                aim_edits(&e, r, m, a, a + 3);
        }
    }
}

/* The same record, and one that differs behind its counts and in spare numbers alone: no row is changed. */
static void unchanged_edits(struct prng *r)
{
    static struct edit e;
    static struct columns rows;
    static struct dry d;
    for (size_t i = 0; i < COUNT(ROWS); i++)
        for (size_t which = 0; which < DISCHARGES; which++) {
            start_edit(&e, r, ROWS[i], 1, ROWS[i], false);
            open_pond(&e.site, 8, discharge_of(&e.site, which));
            if (study_rows(&e.site, &rows) != 0)
                continue;
            dry_study(&d, &e.site, &rows);
            if (!cut_pond_at(&e.site, greatest_x(&d)))
                continue;
            keep_record(&e);
            take_aimed_edit(&e);
            litter(e.fresh, r);
            memcpy(e.fresh, old_record(&e), (BT_PATCHES + BT_PATCH_WIDTH) * sizeof(u64));
            memcpy(&e.fresh[BT_SEGMENT_COUNT], &old_record(&e)[BT_SEGMENT_COUNT], sizeof(u64));
            for (u64 k = 0; k < e.fresh[BT_SEGMENT_COUNT]; k++)
                memcpy(segment_at(e.fresh, k), segment_at(old_record(&e), k), 3 * sizeof(u64));
            take_aimed_edit(&e);
        }
}

void aimed_cases(u64 seed)
{
    static void (*const all[])(struct prng *) = { aimed_studies, aimed_edits, unchanged_edits };
    for (size_t i = 0; i < COUNT(all); i++) {
        struct prng r = prng_of(seed, 2000 + i);
        all[i](&r);
    }
}
