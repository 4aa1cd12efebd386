#include "take.h"

#include <inttypes.h>
#include <stdio.h>

#include "report.h"
#include "tally.h"

#define COUNT(a) (sizeof(a) / sizeof *(a))

struct run run = { .seed = 1, .sites = 50000, .chains = 6000, .large = 200 };
struct call call;

static struct result due;
static const char *by; /* the entry called last, where there are several */

bool wanted(u64 count)
{
    if (run.only == 0 || (run.number < run.only && run.only <= run.number + count))
        return true;
    run.number += count;
    return false;
}

/* Whether this very case is to be taken: the one before it in a chain may not be. */
static bool next_case(void)
{
    run.number++;
    run.taken += run.only == 0 || run.only == run.number;
    return run.only == 0 || run.only == run.number;
}

/* Counts a fault. Gives whether the case is to be printed, and says which it is. */
static bool to_print(const char *kind, const char *fault)
{
    if (fault)
        run.differ++;
    if (run.only == 0 && !(fault && run.differ == 1))
        return false;
    printf("case %" PRIu64 " of seed %" PRIu64 " (%s%s): %s\n", run.number, run.seed, kind, by,
           fault ? fault : "agrees");
    printf("  again: --seed %" PRIu64 " --cases %" PRIu64 " --chains %" PRIu64 " --large %" PRIu64 " --only %" PRIu64
           "\n", run.seed, run.sites, run.chains, run.large, run.number);
    return true;
}

static bool tight(void)
{
    return run.number % 4 < 2;
}

/* ---- Studies */

static const struct {
    const char *by;
    void (*make)(struct call *, const struct site *);
    bool records; /* needs whole ones */
} STUDIES[] = {
    { "", engine_study, false },
    { ", by records", engine_study_records, true },
    { ", by plain C", plainly_study, false },
};

static bool whole_records(const struct site *s)
{
    return s->subareas.len % BT_WIDTH == 0;
}

static const char *try_study(const struct site *s, size_t entry)
{
    if (STUDIES[entry].records && !whole_records(s))
        return NULL;
    by = STUDIES[entry].by;
    lend_study(&call, s, tight());
    STUDIES[entry].make(&call, s);
    return study_fault(&call, s, &due);
}

/* ---- The inflow rows of a study's site */

static const struct {
    const char *by;
    void (*make)(struct call *, const struct site *);
} INFLOWS[] = {
    { ", inflow alone", engine_inflow },
    { ", inflow alone by the textbook", engine_textbook },
};

/* Both engines are held to what the reference has in the textbook's way, and that to what is due of the study. */
static void take_inflow(const char *kind, const struct site *s)
{
    static struct result alone;
    const char *fault = NULL;
    inflow_due(&alone, s, &due);
    count_inflow(s, &due, &alone);
    for (size_t entry = 0; entry < COUNT(INFLOWS) && !fault; entry++) {
        by = INFLOWS[entry].by;
        lend_inflow(&call, s, tight());
        INFLOWS[entry].make(&call, s);
        fault = inflow_fault(&call, s, &alone);
    }
    if (!fault)
        fault = ways_fault(s, &due, &alone);
    if (to_print(kind, fault))
        print_inflow(&call, s, &alone, run.only != 0);
}

const struct result *take_study(const char *kind, const struct site *s)
{
    const char *fault = NULL;
    study_due(&due, s);
    if (!next_case())
        return &due;
    count_study(s, &due);
    for (size_t entry = 0; entry < COUNT(STUDIES) && !fault; entry++)
        fault = try_study(s, entry);
    if (to_print(kind, fault))
        print_study(&call, s, &due, run.only != 0);
    if (!fault)
        take_inflow(kind, s);
    return &due;
}

/* ---- Edits */

static const struct {
    const char *by;
    void (*make)(struct call *, const struct edit *);
    bool records;
} EDITS[] = {
    { "", engine_edit, false },
    { ", by records", engine_edit_records, true },
    { ", by plain C", plainly_edit, false },
};

static const char *try_edit(const struct edit *e, size_t entry)
{
    if (EDITS[entry].records && !whole_records(&e->site))
        return NULL;
    by = EDITS[entry].by;
    lend_edit(&call, e, tight());
    EDITS[entry].make(&call, e);
    return edit_fault(&call, e, &due);
}

/* After the first entry's call, with what it had for a fault. */
static void settle_edit(const char *kind, const char *fault, const struct edit *e)
{
    count_edit(e, &due);
    for (size_t entry = 1; entry < COUNT(EDITS) && !fault; entry++)
        fault = try_edit(e, entry);
    if (to_print(kind, fault))
        print_edit(&call, e, &due, run.only != 0);
}

const struct result *take_edit(const char *kind, const struct edit *e)
{
    edit_due(&due, e);
    if (next_case())
        settle_edit(kind, try_edit(e, 0), e);
    return &due;
}

const struct result *take_standing_by(const char *kind, const struct edit *e, const u64 *before, u64 rule)
{
    static struct site altered;
    static struct result anew;
    edit_due(&due, e);
    if (!next_case())
        return &due;
    altered_site(&altered, e);
    altered.rule = rule;
    study_due(&anew, &altered);
    const char *other = try_edit(e, 0), *fault = standing_fault(&call, e, before, &anew);
    settle_edit(kind, fault ? fault : other, e);
    return &due;
}

const struct result *take_standing(const char *kind, const struct edit *e, const u64 *before)
{
    return take_standing_by(kind, e, before, e->site.rule);
}

/* ---- Marks */

static const char *try_mark(const struct mark *m, const char *name, void (*make)(struct call *, const struct mark *))
{
    by = name;
    lend_mark(&call, m, tight());
    make(&call, m);
    return mark_fault(&call, m, &due);
}

const struct result *take_mark(const char *kind, const struct mark *m)
{
    mark_due(&due, m);
    if (!next_case())
        return &due;
    count_mark(m, &due);
    const char *fault = try_mark(m, "", engine_mark);
    if (!fault)
        fault = try_mark(m, ", by plain C", plainly_mark);
    if (to_print(kind, fault))
        print_mark(&call, m, &due);
    return &due;
}

/* ---- Whole sites */

void take_site(const char *kind, const struct site *s)
{
    static struct edit e;
    static struct mark m;
    if (!wanted(SITE_CASES))
        return;
    struct prng r = prng_of(~run.seed, run.number + 1); /* not those that a random site was made of */
    take_study(kind, s);
    edit_of(&e, s, &r);
    take_edit(kind, &e);
    mark_of(&m, s, &r);
    take_mark(kind, &m);
}
