#define _GNU_SOURCE
#include "stack.h"

#include <pthread.h>
#include <stdio.h>
#include <stdlib.h>
#include <sys/mman.h>

#include "greatest.h"
#include "take.h"

#define COUNT(a) (sizeof(a) / sizeof *(a))

/* ---- The bounds: bytes from the entry's return address down, wherever that is kept. What the caller lays on the stack
   for the entry's parameters is the caller's. */

enum { STUDY, STUDY_RECORDS, EDIT, EDIT_RECORDS, MARK, INFLOW, TEXTBOOK, ENTRIES };

enum {
    /* The flat list that an entry over records gathers, 16 records of 56 numbers of 64 bits, three times: where 'gather'
       makes it, where it is given back, and where it is handed on. A compiler may do with fewer. */
    GATHERED = 3 * BT_MOST_SUBAREAS * BT_WIDTH * sizeof(u64),
    HANDED_ON = 129, /* parameters and registers of one call more */
    FLAT = 2047      /* less than 2,048: blocks of rows, and the calls that they lie under */
};

static const struct {
    const char *name;
    size_t most;
} BOUNDS[ENTRIES] = {
    [STUDY] = { "bt_study", FLAT },
    [STUDY_RECORDS] = { "bt_study_records", FLAT + GATHERED + HANDED_ON },
    [EDIT] = { "bt_edit", FLAT },
    [EDIT_RECORDS] = { "bt_edit_records", FLAT + GATHERED + HANDED_ON },
    [MARK] = { "bt_mark", FLAT },
    [INFLOW] = { "bt_inflow", FLAT },
    [TEXTBOOK] = { "bt_textbook", 33440 }, /* two lists of 2,000 numbers of 64 bits, and its calls */
};

/* ---- A thread paints what lies below its frame, makes a call, and looks how far down the paint is gone */

enum {
    STACK_BYTES = 4 << 20,
    OWN = 128 /* what the painter itself may use below its frame */
};

static const u64 PAINT = 0x0ddba11c0ffee000u;

typedef void (*function)(void);

static volatile function entry; /* what the calls below call */
static char *top;               /* the stack pointer of a call's last instruction before the entry's first */

/* In an entry's place: it takes no parameter, and leaves those of the entry where they are. */
static __attribute__((noinline)) void note_top(void)
{
    top = __builtin_dwarf_cfa();
}

/* Called from the frame that the call is made from, so that its own frame stands where the call's will. */
static __attribute__((noinline)) volatile u64 *paint(char *base)
{
    char *frame = __builtin_frame_address(0);
    volatile u64 *end = (u64 *)(void *)(base + (size_t)(frame - OWN - base) / sizeof(u64) * sizeof(u64));
    for (volatile u64 *w = (u64 *)(void *)base; w < end; w++)
        *w = PAINT;
    return end;
}

struct painted {
    char *base;
    function entry;
    void (*make)(void);
    size_t used, unseen; /* a call that takes no more than 'unseen' is not told from one that takes less */
};

static size_t below_top(volatile u64 *at)
{
    char *low = (char *)(uintptr_t)at;
    return low < top ? (size_t)(top - low) : 0;
}

static void *call_on_paint(void *given)
{
    struct painted *p = given;
    entry = note_top;
    p->make();
    entry = p->entry;
    volatile u64 *low = (u64 *)(void *)p->base, *end = paint(p->base);
    p->make();
    while (low < end && *low == PAINT)
        low++;
    p->used = below_top(low);
    p->unseen = below_top(end);
    return NULL;
}

static void fail_if(int error, const char *what)
{
    if (error == 0)
        return;
    fprintf(stderr, "host: %s failed\n", what);
    exit(2);
}

static struct painted stack_of(function own, void (*make)(void))
{
    char *base = mmap(NULL, STACK_BYTES, PROT_READ | PROT_WRITE, MAP_PRIVATE | MAP_ANONYMOUS, -1, 0);
    struct painted p = { base, own, make, 0, 0 };
    pthread_attr_t how;
    pthread_t thread;
    fail_if(base == MAP_FAILED, "memory for a stack");
    fail_if(pthread_attr_init(&how), "a thread's attributes");
    fail_if(pthread_attr_setstack(&how, base, STACK_BYTES), "a thread's stack");
    fail_if(pthread_create(&thread, &how, call_on_paint, &p), "a thread");
    fail_if(pthread_join(thread, NULL), "the end of a thread");
    pthread_attr_destroy(&how);
    munmap(base, STACK_BYTES);
    return p;
}

/* ---- The calls */

/* What is called: an edit of rows that stand, a study of the list that it leaves, a mark of a row. What the first two
   are to give back. */
static struct {
    struct edit edit;
    struct site study;
    struct mark mark;
    u64 gives;
} in;

static void lend_for_study(void)
{
    lend_study(&call, &in.study, false);
}

static void lend_for_inflow(void)
{
    lend_inflow(&call, &in.study, false);
}

static void lend_for_edit(void)
{
    lend_edit(&call, &in.edit, false);
}

static void lend_for_mark(void)
{
    lend_mark(&call, &in.mark, false);
}

#define ENTRY(name) ((__typeof__(name) *)entry)
#define LENT(list) call.list.at, call.list.len
#define ROWS LENT(inflow), LENT(outflow), LENT(storage)
#define SETUP(site) (site).step, (site).first, (site).rule
#define RECORDS (const bt_subarea *)call.subareas.at, call.subareas.len / BT_WIDTH
#define CHANGE in.edit.place, call.fresh.at, call.answer.at, (int64_t *)call.changes.at

static void make_study(void)
{
    call.gave = ENTRY(bt_study)(SETUP(in.study), LENT(rain), LENT(subareas), LENT(pond), ROWS, call.answer.at);
}

static void make_study_records(void)
{
    call.gave = ENTRY(bt_study_records)(SETUP(in.study), LENT(rain), RECORDS, LENT(pond), ROWS, call.answer.at);
}

static void make_edit(void)
{
    call.gave = ENTRY(bt_edit)(SETUP(in.edit.site), LENT(rain), LENT(subareas), LENT(pond), ROWS, CHANGE);
}

static void make_edit_records(void)
{
    call.gave = ENTRY(bt_edit_records)(SETUP(in.edit.site), LENT(rain), RECORDS, LENT(pond), ROWS, CHANGE);
}

static void make_mark(void)
{
    call.gave = ENTRY(bt_mark)(in.mark.site.step, in.mark.site.first, LENT(pond), ROWS, in.mark.row, call.answer.at,
                               (double *)call.values.at);
}

static void make_inflow(void)
{
    call.gave = ENTRY(bt_inflow)(SETUP(in.study), LENT(rain), LENT(subareas), ROWS, call.answer.at);
}

static const struct {
    function entry;
    void (*lend)(void), (*make)(void);
    bool gives; /* what the input says */
} CALLS[ENTRIES] = {
    [STUDY] = { (function)bt_study, lend_for_study, make_study, true },
    [STUDY_RECORDS] = { (function)bt_study_records, lend_for_study, make_study_records, true },
    [EDIT] = { (function)bt_edit, lend_for_edit, make_edit, true },
    [EDIT_RECORDS] = { (function)bt_edit_records, lend_for_edit, make_edit_records, true },
    [MARK] = { (function)bt_mark, lend_for_mark, make_mark, false },
    [INFLOW] = { (function)bt_inflow, lend_for_inflow, make_inflow, false },
    [TEXTBOOK] = { (function)bt_textbook, lend_for_inflow, make_inflow, false },
};

/* The first call binds what the engine calls of the C library, which takes stack of its own; the second is measured. */
static struct painted stack_of_entry(size_t e)
{
    CALLS[e].lend();
    entry = CALLS[e].entry;
    CALLS[e].make();
    CALLS[e].lend();
    struct painted p = stack_of(CALLS[e].entry, CALLS[e].make);
    fail_if(call.gave != (CALLS[e].gives ? in.gives : 0), "a call whose stack is looked at");
    return p;
}

/* ---- Inputs */

static void greatest_inputs(size_t changed, enum pond pond)
{
    fail_if(!greatest_edit(&in.edit, changed, pond), "an edit of the greatest size");
    in.gives = pond == FULL ? BT_REFUSED_FULL : 0;
}

/* Large sites and likely ones in turn, whose edit is done. */
static void random_inputs(u64 seed, u64 number)
{
    static struct result due;
    struct prng r = prng_of(seed, number);
    do {
        in.edit = (struct edit){ .place = 1 };
        (number % 2 == 0 ? likely_site : large_site)(&in.edit.site, &r);
        u64 gave = stand(&in.edit);
        fitting_record(&in.edit.site, in.edit.fresh, &r, BT_MOST_PATCHES);
        due.gave = gave;
        if (gave == 0)
            edit_due(&due, &in.edit);
    } while (due.gave != 0);
    in.gives = 0;
}

/* ---- All of them */

static struct painted most[ENTRIES];

/* The study is of the list that the edit leaves, the mark of the peak row. */
static void look_at_inputs(void)
{
    altered_site(&in.study, &in.edit);
    in.mark = (struct mark){ in.edit.site, in.edit.found, 1 };
    for (size_t k = 2; k <= in.mark.site.outflow; k++)
        if (in.mark.found.outflow[k - 1] > in.mark.found.outflow[in.mark.row - 1])
            in.mark.row = k;
    for (size_t e = 0; e < ENTRIES; e++) {
        struct painted p = stack_of_entry(e);
        most[e] = p.used > most[e].used ? p : most[e];
    }
}

void hold_stack(u64 seed)
{
    static const size_t changed[] = { 1, 1500, BT_MOST_ROWS - 20 };
    for (size_t i = 0; i < COUNT(changed); i++)
        for (enum pond pond = AMPLE; pond <= FULL; pond++) {
            greatest_inputs(changed[i], pond);
            look_at_inputs();
        }
    for (u64 number = 1; number <= 8; number++) {
        random_inputs(seed, number);
        look_at_inputs();
    }
    for (size_t e = 0; e < ENTRIES; e++) {
        bool over = most[e].used > BOUNDS[e].most, less = most[e].used == most[e].unseen;
        printf("stack: %-16s takes %5zu bytes%s, bound %zu%s\n", BOUNDS[e].name, most[e].used, less ? " or less" : "",
               BOUNDS[e].most, over ? ": too many" : "");
        run.taken++;
        run.differ += over;
    }
}
