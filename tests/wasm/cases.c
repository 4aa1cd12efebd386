/*
 * Prints calls to be made of the engine in WebAssembly, and what the native engine makes of them. A line is one of
 *
 *   interface N            what bt_interface gives
 *   record WIDTH           the numbers of a record
 *   case TEXT              what follows, in words
 *   setup STEP FIRST RULE  of which a mark takes no rule
 *   lend LIST NUMBERS..    the list now holds these numbers, and is as long
 *   call FUNCTION [N]      with the lists as they then stand; N: the place of an edit, the row of a mark
 *   gave N                 what that call gives back,
 *   due LIST NUMBERS..     and what it leaves in a list that it may write
 *
 * Lists have the names of the parameters in include/bridletenon.h. Inputs are made as tests/host makes them.
 */
#include <inttypes.h>
#include <stdio.h>
#include <stdlib.h>
#include <string.h>

#include "edit.h"
#include "faults.h"
#include "greatest.h"
#include "mark.h"

#define COUNT(a) (sizeof(a) / sizeof *(a))

static const u64 SEED = 1, MOST = UINT64_MAX;

/* ---- What is lent */

static struct {
    u64 step, first, rule;
    struct list rain, subareas, pond, inflow, outflow, storage, fresh;
} lent;

static void print_numbers(const char *word, const char *list, const u64 *at, size_t len)
{
    printf("%s %s", word, list);
    for (size_t i = 0; i < len; i++)
        printf(" %" PRIu64, at[i]);
    printf("\n");
}

static void lend(const char *name, struct list *to, const u64 *from, size_t len)
{
    memcpy(to->at, from, len * sizeof *from);
    to->len = len;
    print_numbers("lend", name, from, len);
}

static void lend_pond(const struct site *s)
{
    lent.step = s->step;
    lent.first = s->first;
    lent.rule = s->rule;
    printf("setup %" PRIu64 " %" PRIu64 " %" PRIu64 "\n", s->step, s->first, s->rule);
    lend("pond", &lent.pond, s->pond.at, s->pond.len);
}

static void lend_site(const struct site *s)
{
    lend_pond(s);
    lend("rain", &lent.rain, s->rain.at, s->rain.len);
    lend("subareas", &lent.subareas, s->subareas.at, s->subareas.len);
}

static void lend_rows(const struct site *s, const struct columns *rows)
{
    lend("inflow", &lent.inflow, rows->inflow, s->inflow);
    lend("outflow", &lent.outflow, rows->outflow, s->outflow);
    lend("storage", &lent.storage, rows->storage, s->storage);
}

/* Numbers that no study would leave. */
static void lend_blank_rows(const struct site *s)
{
    static struct columns blank;
    memset(&blank, 0xa5, sizeof blank);
    lend_rows(s, &blank);
}

/* ---- Calls */

#define LENT(list) lent.list.at, lent.list.len
#define LENT_RECORDS (const bt_subarea *)lent.subareas.at, lent.subareas.len / BT_WIDTH

static void print_rows(void)
{
    print_numbers("due", "inflow", LENT(inflow));
    print_numbers("due", "outflow", LENT(outflow));
    print_numbers("due", "storage", LENT(storage));
}

static void call_study(void)
{
    u64 answer[BT_ANSWER_LENGTH];
    printf("call bt_study\n");
    printf("gave %" PRIu64 "\n", bt_study(lent.step, lent.first, lent.rule, LENT(rain), LENT(subareas), LENT(pond),
                                          LENT(inflow), LENT(outflow), LENT(storage), answer));
    print_numbers("due", "answer", answer, BT_ANSWER_LENGTH);
    print_rows();
}

static void call_study_records(void)
{
    u64 answer[BT_ANSWER_LENGTH];
    printf("call bt_study_records\n");
    printf("gave %" PRIu64 "\n", bt_study_records(lent.step, lent.first, lent.rule, LENT(rain), LENT_RECORDS,
                                                  LENT(pond), LENT(inflow), LENT(outflow), LENT(storage), answer));
    print_numbers("due", "answer", answer, BT_ANSWER_LENGTH);
    print_rows();
}

/* bt_inflow or bt_textbook, which take the same. */
static void call_inflow(const char *name, __typeof__(bt_inflow) *entry)
{
    u64 answer[BT_INFLOW_ANSWER_LENGTH];
    printf("call %s\n", name);
    printf("gave %" PRIu64 "\n", entry(lent.step, lent.first, lent.rule, LENT(rain), LENT(subareas), LENT(inflow),
                                       LENT(outflow), LENT(storage), answer));
    print_numbers("due", "answer", answer, BT_INFLOW_ANSWER_LENGTH);
    print_rows();
}

static void print_edit(u64 gave, const u64 *answer, const int64_t *changes)
{
    printf("gave %" PRIu64 "\n", gave);
    print_numbers("due", "answer", answer, BT_EDIT_ANSWER_LENGTH);
    printf("due changes %" PRId64 " %" PRId64 "\n", changes[BT_PEAK_CHANGE], changes[BT_RELEASED_CHANGE]);
    print_rows();
}

static void call_edit(u64 place)
{
    u64 answer[BT_EDIT_ANSWER_LENGTH];
    int64_t changes[BT_CHANGES_LENGTH];
    printf("call bt_edit %" PRIu64 "\n", place);
    u64 gave = bt_edit(lent.step, lent.first, lent.rule, LENT(rain), LENT(subareas), LENT(pond), LENT(inflow),
                       LENT(outflow), LENT(storage), place, lent.fresh.at, answer, changes);
    print_edit(gave, answer, changes);
}

static void call_edit_records(u64 place)
{
    u64 answer[BT_EDIT_ANSWER_LENGTH];
    int64_t changes[BT_CHANGES_LENGTH];
    printf("call bt_edit_records %" PRIu64 "\n", place);
    u64 gave = bt_edit_records(lent.step, lent.first, lent.rule, LENT(rain), LENT_RECORDS, LENT(pond), LENT(inflow),
                               LENT(outflow), LENT(storage), place, lent.fresh.at, answer, changes);
    print_edit(gave, answer, changes);
}

/* 17 digits tell a double from every other. */
static void call_mark(u64 row)
{
    u64 answer[BT_MARK_ANSWER_LENGTH];
    double values[BT_VALUES_LENGTH];
    printf("call bt_mark %" PRIu64 "\n", row);
    printf("gave %" PRIu64 "\n", bt_mark(lent.step, lent.first, LENT(pond), LENT(inflow), LENT(outflow), LENT(storage),
                                         row, answer, values));
    print_numbers("due", "answer", answer, BT_MARK_ANSWER_LENGTH);
    printf("due values");
    for (size_t i = 0; i < BT_VALUES_LENGTH; i++)
        printf(" %.17g", values[i]);
    printf("\n");
}

/* ---- Cases of one input. Those of whole records are called by the list of records, too, first. Before a study come
   the inflow rows of its site alone. */

static bool whole_records(const struct site *s)
{
    return s->subareas.len % BT_WIDTH == 0;
}

static void take_inflow(const struct site *s)
{
    lend_blank_rows(s);
    call_inflow("bt_inflow", bt_inflow);
    lend_blank_rows(s);
    call_inflow("bt_textbook", bt_textbook);
}

static void take_study(const struct site *s)
{
    lend_site(s);
    take_inflow(s);
    if (whole_records(s)) {
        lend_blank_rows(s);
        call_study_records();
    }
    lend_blank_rows(s);
    call_study();
}

static void take_edit(const struct edit *e)
{
    lend_site(&e->site);
    lend("fresh", &lent.fresh, e->fresh, BT_WIDTH);
    if (whole_records(&e->site)) {
        lend_rows(&e->site, &e->found);
        call_edit_records(e->place);
    }
    lend_rows(&e->site, &e->found);
    call_edit(e->place);
}

static void take_mark(const struct mark *m)
{
    lend_pond(&m->site);
    lend_rows(&m->site, &m->found);
    call_mark(m->row);
}

/* ---- A study, edits of what stands, and after each the marks of every row. The last row's number is 2^53 - 1. */

static void mark_every_row(void)
{
    for (u64 row = 0; row <= lent.inflow.len + 1; row++)
        call_mark(row);
}

static void take_chain(const char *what, struct edit *e, struct prng *r, int edits)
{
    e->site.first = BT_LAST_ROW_NUMBER - e->site.inflow + 1;
    printf("case %s: %zu rows, %zu subareas\n", what, e->site.inflow, subarea_count(&e->site));
    take_study(&e->site);
    mark_every_row();
    while (edits-- > 0) {
        e->place = between(r, 1, subarea_count(&e->site));
        random_fresh(e, r);
        take_edit(e);
        mark_every_row();
        altered_site(&e->site, e);
        if (stand(e) != 0)
            return;
    }
}

static void accepted(struct edit *e, struct prng *r, void (*make)(struct site *, struct prng *))
{
    do {
        *e = (struct edit){ 0 };
        make(&e->site, r);
    } while (stand(e) != 0);
}

static void row_site(struct site *s, struct prng *r)
{
    plain_site(s, r, 1, 2);
    set_rows(s, 1);
    s->rain.len = 2;
}

static void full_site(struct site *s, struct prng *r)
{
    plain_site(s, r, BT_MOST_SUBAREAS, BT_MOST_POND_ROWS);
}

static void chains(void)
{
    static const struct {
        const char *what;
        void (*make)(struct site *, struct prng *);
        int count, edits;
    } all[] = {
        { "one row", row_site, 1, 2 },
        { "16 subareas, 64 pond rows", full_site, 1, 2 },
        { "likely", likely_site, 24, 2 },
        { "large", large_site, 2, 1 },
    };
    static struct edit e;
    struct prng r = prng_of(SEED, 1);
    for (size_t i = 0; i < COUNT(all); i++)
        for (int j = 0; j < all[i].count; j++) {
            accepted(&e, &r, all[i].make);
            take_chain(all[i].what, &e, &r, all[i].edits);
        }
}

/* ---- Edits of the greatest size, and studies of the lists that they leave, in an ample pond, a tight one, one that
   goes over */

static void greatest(struct edit *e)
{
    static const size_t changed[] = { 1, BT_MOST_ROWS - 20 };
    static struct site after;
    for (size_t i = 0; i < COUNT(changed); i++)
        for (enum pond pond = AMPLE; pond <= FULL; pond++) {
            if (!greatest_edit(e, changed[i], pond)) {
                fprintf(stderr, "wasm: an edit of the greatest size came out otherwise than it should\n");
                exit(1);
            }
            printf("case the greatest size, first changed row %zu\n", changed[i]);
            altered_site(&after, e);
            take_study(&after);
            take_edit(e);
        }
}

/* ---- Refusals: each number that a function has */

/* A plain site whose rows stand, and a new record for its subarea 2. */
static void start(struct edit *e, struct prng *r)
{
    *e = (struct edit){ .place = 2 };
    plain_site(&e->site, r, 5, 7);
    stand(e);
    random_fresh(e, r);
}

static void take_all(const struct edit *e, u64 row)
{
    const struct mark m = { e->site, e->found, row };
    take_study(&e->site);
    take_edit(e);
    take_mark(&m);
}

static void study_faults(struct edit *e, struct prng *r)
{
    for (size_t i = 0; i < STUDY_FAULTS; i++)
        for (int where = 0; where < 3; where++) {
            printf("case the fault of refusal %d\n", FAULTS[i].number);
            start(e, r);
            FAULTS[i].make(&e->site, where);
            if (FAULTS[i].number == BT_REFUSED_FULL)
                e->found = (struct columns){ 0 }; /* which 17 does not refuse */
            take_all(e, 1);
        }
}

static void other_faults(struct edit *e, struct prng *r)
{
    static const u64 wrong[] = { 0, 6, 13, 4294967297, UINT64_MAX }; /* places and rows that there are not */
    for (size_t i = 0; i < COUNT(wrong); i++) {
        printf("case the faults of refusals 15 and 18\n");
        start(e, r);
        e->place = wrong[i];
        take_all(e, wrong[i]);
    }
    for (int where = 0; where < 3; where++) {
        size_t k = place(where, e->site.inflow);
        printf("case the faults of refusals 16 and 17\n");
        start(e, r);
        e->found.inflow[k] = MOST;
        take_edit(e);
        start(e, r);
        e->found.storage[k] = MOST;
        take_all(e, 1);
    }
}

/* ---- Segments of sheet and channel flow: on their limits and past them, where the root is whole and beside that */

static const u64 SEGMENTS[][BT_SEGMENT_WIDTH] = {
    { BT_SEGMENT_SHEET, 100, 240, 3600, 100 },
    { BT_SEGMENT_SHEET, 101, 240, 3600, 100 },
    { BT_SEGMENT_SHEET, 1, 1, 30000, 10000 },
    { BT_SEGMENT_SHEET, 300, 999, 30000, 10000 },
    { BT_SEGMENT_SHEET, 300, 999, 1, 1 },
    { BT_SEGMENT_SHEET, 100, 10, 10, 10000 }, /* whole: 252 s */
    { BT_SEGMENT_SHEET, 100, 10, 11, 10000 },
    { BT_SEGMENT_SHEET, 100, 10, 9, 10000 },
    { BT_SEGMENT_SHEET, 301, 999, 30000, 10000 },
    { BT_SEGMENT_SHEET, 300, 1000, 30000, 10000 },
    { BT_SEGMENT_SHEET, 300, 999, 30001, 10000 },
    { BT_SEGMENT_SHEET, 300, 999, 30000, 10001 },
    { BT_SEGMENT_CHANNEL, 2800, 50, 2000, 50 },
    { BT_SEGMENT_CHANNEL, 1, 1, 10000, 10000 },
    { BT_SEGMENT_CHANNEL, 4000, 999, 10000, 10000 },
    { BT_SEGMENT_CHANNEL, 4000, 999, 1, 1 },
    { BT_SEGMENT_CHANNEL, 100, 149, 100, 100 }, /* whole: 100 s */
    { BT_SEGMENT_CHANNEL, 100, 149, 101, 100 },
    { BT_SEGMENT_CHANNEL, 100, 149, 99, 100 },
    { BT_SEGMENT_CHANNEL, 4001, 999, 10000, 10000 },
    { BT_SEGMENT_CHANNEL, 4000, 1000, 10000, 10000 },
    { BT_SEGMENT_CHANNEL, 4000, 999, 10001, 10000 },
    { BT_SEGMENT_CHANNEL, 4000, 999, 10000, 10001 },
};

/* As segment 'at' of the second subarea, from 0: in a study, and as it is put there by an edit. */
static void take_segment(struct edit *e, struct prng *r, u64 rule, const u64 *segment, size_t at)
{
    printf("case kind %" PRIu64 " as segment %zu, by rule %" PRIu64 "\n", segment[BT_KIND_AT], at + 1, rule);
    start(e, r);
    e->site.rule = rule;
    keep_record(e);
    memcpy(segment_at(e->fresh, at), segment, BT_SEGMENT_WIDTH * sizeof *segment);
    take_edit(e);
    altered_site(&e->site, e);
    take_study(&e->site);
}

static void segments(struct edit *e, struct prng *r)
{
    for (size_t i = 0; i < COUNT(SEGMENTS); i++)
        for (size_t at = 0; at < 2; at++)
            for (u64 rule = BT_RULE_TR55; rule <= BT_RULE_WINTR55; rule++)
                take_segment(e, r, rule, SEGMENTS[i], at);
}

/* ---- Sheet rules: some are 1 or 2 in their lower 32 bits. The rows stand by both that there are. */

static void rules(struct edit *e, struct prng *r)
{
    static const u64 values[] = { 0, 1, 2, 3, 4294967297, 4294967298, 9223372036854775809u, UINT64_MAX };
    start(e, r);
    for (size_t i = 0; i < COUNT(values); i++) {
        printf("case rule %" PRIu64 "\n", values[i]);
        e->site.rule = values[i];
        take_all(e, 1);
    }
}

/* A sheet that rule 1 lets stand: in the list, whichever place is edited, and by both rules. */
static void standing_sheets(struct edit *e, struct prng *r)
{
    for (u64 place = 1; place <= 5; place++)
        for (u64 rule = BT_RULE_TR55; rule <= BT_RULE_WINTR55; rule++) {
            printf("case 300 ft of sheet flow in the list, by rule %" PRIu64 "\n", rule);
            start(e, r);
            e->place = place;
            e->site.rule = BT_RULE_TR55;
            set_sheet(record_at(&e->site, 2), 300);
            stand(e);
            e->site.rule = rule;
            take_all(e, 1);
        }
}

/* ---- Random inputs, good and bad */

static void random_sites(struct edit *e)
{
    static struct site s;
    static struct mark m;
    for (u64 number = 0; number < 80; number++) {
        struct prng r = prng_of(SEED, 100 + number);
        printf("case %s, at random\n", number % 2 == 0 ? "likely" : "hostile");
        s = (struct site){ 0 };
        (number % 2 == 0 ? likely_site : hostile_site)(&s, &r);
        take_study(&s);
        edit_of(e, &s, &r);
        take_edit(e);
        mark_of(&m, &s, &r);
        take_mark(&m);
    }
}

int main(void)
{
    static struct edit e;
    struct prng r = prng_of(SEED, 2);
    printf("interface %" PRIu64 "\n", bt_interface());
    printf("record %d\n", BT_WIDTH);
    chains();
    greatest(&e);
    study_faults(&e, &r);
    other_faults(&e, &r);
    segments(&e, &r);
    rules(&e, &r);
    standing_sheets(&e, &r);
    random_sites(&e);
    return 0;
}
