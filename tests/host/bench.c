#define _DEFAULT_SOURCE
#include "bench.h"

#include <stdio.h>
#include <stdlib.h>
#include <string.h>
#include <time.h>

#include "dry.h"
#include "greatest.h"
#include "plain.h"
#include "take.h"

enum { ROUNDS = 101 };

/* ---- What is timed: sites that stand, an edit and a mark of each */

struct inputs {
    struct edit edit;
    struct mark mark;
};

static struct inputs large, typical;

/* The typical study with sheet, shallow and channel flow in each subarea; and with each of those paths replaced by one
   segment at a given velocity that takes as long. */
static struct inputs manning, given;

/* The large and the typical study with other ponds. Tight: in proportion, 5 per cent above the least capacity that
   holds the study; that of an edit, 5 per cent above the least that holds the edited one, too. Ample: the last X_i is
   above all that runs off. Full: in proportion, so small that it goes over two thirds through the rows, or as late as
   it can where the pond is fullest before. */
static struct inputs tight, tight_edit, ample, full, typical_tight, typical_tight_edit;

/* The greatest size, with rain to the last row, so that the pond fills to the end; it holds no more than is needed, so
   that a search for 14 runs to the last row. A study of the list that the edit leaves, and the edit; and full, as
   above. */
static struct inputs longest, longest_edit, longest_full;

/* 24 hours in steps of 180 seconds, most of the rain about noon; four subareas of 15 weights. */
static void typical_site(struct site *s, struct prng *r)
{
    *s = (struct site){ .step = 180, .first = 1, .rule = BT_RULE_TR55 };
    set_rows(s, 480);
    s->rain.len = 481;
    for (size_t t = 1; t <= 480; t++)
        s->rain.at[t] = t <= 220 ? 5 * t : t <= 260 ? 1100 + 70 * (t - 220) : 3900 + 5 * (t - 260);
    s->subareas.len = 4 * BT_WIDTH;
    for (size_t i = 0; i < 4; i++) {
        random_patches(record_at(s, i), r, 3, 1000);
        set_concentration(record_at(s, i), 750); /* Tp 540 */
    }
    set_pond(s, 8, 800000000, 90, 40);
}

/* Short grass, then unpaved ground, then a ditch: Tc of 753 to 803, so 15 weights again. */
static void set_path(u64 *record, u64 i)
{
    const bt_segment path[] = {
        { BT_SEGMENT_SHEET, 100 - 5 * i, .by.sheet = { .n = 150, .rain = 3600, .slope = 300 } },
        { BT_SEGMENT_UNPAVED, 300 + 60 * i, .by.shallow = { .slope = 200 } },
        { BT_SEGMENT_CHANNEL, 310 + 20 * i, .by.channel = { .n = 50, .radius = 96, .slope = 50 } },
    };
    memcpy(segment_at(record, 0), path, sizeof path);
    record[BT_SEGMENT_COUNT] = sizeof path / sizeof *path;
}

static void manning_site(struct site *s, struct prng *r)
{
    typical_site(s, r);
    for (size_t i = 0; i < subarea_count(s); i++)
        set_path(record_at(s, i), i);
}

/* One foot a second. */
static void give_time(u64 *record)
{
    bt_segment all = { BT_SEGMENT_GIVEN, reference_concentration(record), .by.given = { .velocity = 100 } };
    memcpy(segment_at(record, 0), &all, sizeof all);
    record[BT_SEGMENT_COUNT] = 1;
}

/* One record replaced by another with as many weights, such that the edit is done and changes much. */
static void ask_edit(struct edit *e, struct prng *r)
{
    static struct result due;
    e->place = subarea_count(&e->site) / 2;
    do {
        keep_record(e);
        random_patches(e->fresh, r, 4, 2000);
        edit_due(&due, e);
    } while (due.gave != 0 || due.answer[BT_CHANGED] > e->site.inflow / 4);
}

/* The mark of the last row: all of them are looked at for the peak. */
static void make_inputs(struct inputs *in, struct prng *r, void (*make)(struct site *, struct prng *))
{
    do {
        in->edit = (struct edit){ 0 };
        make(&in->edit.site, r);
    } while (stand(&in->edit) != 0);
    ask_edit(&in->edit, r);
    in->mark = (struct mark){ in->edit.site, in->edit.found, in->edit.site.inflow };
}

static void stop(const char *why)
{
    fprintf(stderr, "host: %s\n", why);
    exit(2);
}

/* The same rows, or the two cannot be compared. */
static void make_given(void)
{
    given = manning;
    for (size_t i = 0; i < subarea_count(&given.edit.site); i++)
        give_time(record_at(&given.edit.site, i));
    if (stand(&given.edit) != 0 || memcmp(&given.edit.found, &manning.edit.found, sizeof given.edit.found) != 0)
        stop("a path and its time give other rows");
}

/* ---- Other ponds */

/* The row at which the plain engine's study goes over, from 1; past the last where it is done. */
static size_t over_row(const struct site *s)
{
    static struct columns rows;
    u64 answer[BT_ANSWER_LENGTH];
    u64 gave = plain_study(s->step, s->first, s->rule, s->rain.at, s->rain.len, s->subareas.at, s->subareas.len,
                           s->pond.at, s->pond.len, rows.inflow, s->inflow, rows.outflow, s->outflow, rows.storage,
                           s->storage, answer);
    if (gave != 0 && gave != BT_REFUSED_FULL)
        stop("a pond in proportion is refused");
    return gave == 0 ? s->inflow + 1 : answer[BT_PLACE];
}

/* The least capacity, in proportion to the pond, with which no row before 'row' goes over. */
static u64 least_capacity(const struct site *from, size_t row)
{
    static struct site s;
    u64 low = pond_rows(from) * 1000, high = from->pond.at[from->pond.len - 2]; /* too little, and enough */
    s = *from;
    while (low + 1 < high) {
        u64 middle = low + (high - low) / 2;
        scale_pond(&s, &from->pond, middle);
        if (over_row(&s) < row)
            low = middle;
        else
            high = middle;
    }
    return high;
}

static u64 tight_capacity(const struct site *from)
{
    return least_capacity(from, from->inflow + 1) * 105 / 100;
}

static void make_tight(struct inputs *to, const struct inputs *from)
{
    *to = *from;
    scale_pond(&to->edit.site, &from->edit.site.pond, tight_capacity(&from->edit.site));
}

/* The rows stand in the pond that holds both. */
static void make_tight_edit(struct inputs *to, const struct inputs *from)
{
    static struct site after;
    altered_site(&after, &from->edit);
    u64 before = tight_capacity(&from->edit.site), edited = tight_capacity(&after);
    *to = *from;
    scale_pond(&to->edit.site, &from->edit.site.pond, before < edited ? edited : before);
    if (stand(&to->edit) != 0)
        stop("a study that a pond holds is refused");
}

static void make_ample(struct inputs *to, const struct inputs *from)
{
    u64 all = all_inflow(&from->edit.site), *last = pond_row_at(&to->edit.site, pond_rows(&from->edit.site) - 1);
    *to = *from;
    if (last[1] <= all)
        last[1] = all + 1;
}

static void make_full(struct inputs *to, const struct inputs *from)
{
    *to = *from;
    u64 capacity = least_capacity(&from->edit.site, from->edit.site.inflow * 2 / 3);
    u64 holds = least_capacity(&from->edit.site, from->edit.site.inflow + 1);
    scale_pond(&to->edit.site, &from->edit.site.pond, capacity < holds ? capacity : holds - 1);
}

static void make_longest(void)
{
    if (!greatest_edit(&longest_edit.edit, 1, TIGHT))
        stop("an edit of the greatest size came out otherwise than it should");
    altered_site(&longest.edit.site, &longest_edit.edit);
    make_full(&longest_full, &longest);
}

static void make_all(u64 seed)
{
    struct prng r = prng_of(seed, 1), same = prng_of(seed, 2), again = same;
    make_inputs(&large, &r, large_site);
    make_inputs(&typical, &same, typical_site);
    make_inputs(&manning, &again, manning_site);
    make_given();
    make_tight(&tight, &large);
    make_tight_edit(&tight_edit, &large);
    make_ample(&ample, &large);
    make_full(&full, &large);
    make_tight(&typical_tight, &typical);
    make_tight_edit(&typical_tight_edit, &typical);
    make_longest();
}

/* ---- The calls. Those that are repeated leave what they are lent as they found it, or write the same again. */

struct call_of {
    const char *whose;
    void (*lend)(const struct inputs *), (*make)(const struct inputs *);
};

static void lend_for_study(const struct inputs *in)
{
    lend_study(&call, &in->edit.site, false);
}

static void lend_for_edit(const struct inputs *in)
{
    lend_edit(&call, &in->edit, false);
}

static void lend_for_mark(const struct inputs *in)
{
    lend_mark(&call, &in->mark, false);
}

static void time_study(const struct inputs *in)
{
    engine_study(&call, &in->edit.site);
}

static void time_plain_study(const struct inputs *in)
{
    plainly_study(&call, &in->edit.site);
}

static void time_edit(const struct inputs *in)
{
    engine_edit(&call, &in->edit);
}

static void time_plain_edit(const struct inputs *in)
{
    plainly_edit(&call, &in->edit);
}

static void time_mark(const struct inputs *in)
{
    engine_mark(&call, &in->mark);
}

static void time_plain_mark(const struct inputs *in)
{
    plainly_mark(&call, &in->mark);
}

static const struct call_of STUDY = { "engine", lend_for_study, time_study };
static const struct call_of PLAIN_STUDY = { "plain C", lend_for_study, time_plain_study };
static const struct call_of EDIT = { "engine", lend_for_edit, time_edit };
static const struct call_of PLAIN_EDIT = { "plain C", lend_for_edit, time_plain_edit };
static const struct call_of MARK = { "engine", lend_for_mark, time_mark };
static const struct call_of PLAIN_MARK = { "plain C", lend_for_mark, time_plain_mark };

/* ---- Time */

static double now(void)
{
    struct timespec t;
    clock_gettime(CLOCK_MONOTONIC, &t);
    return (double)t.tv_sec * 1e6 + (double)t.tv_nsec / 1e3;
}

static int by_size(const void *a, const void *b)
{
    double x = *(const double *)a, y = *(const double *)b;
    return x < y ? -1 : x > y;
}

static double median(double *times)
{
    qsort(times, ROUNDS, sizeof *times, by_size);
    return times[ROUNDS / 2];
}

/* Microseconds of one call. Nothing is timed that is not done, but where the pond is to be full. */
static double time_of(const struct inputs *in, const struct call_of *c, int repeats)
{
    c->lend(in);
    double start = now();
    for (int i = 0; i < repeats; i++)
        c->make(in);
    double end = now();
    if (call.gave != (in == &full || in == &longest_full ? BT_REFUSED_FULL : 0))
        stop("what is timed ended otherwise than it should");
    return (end - start) / repeats;
}

/* A call of some input. */
struct timed {
    const struct inputs *in;
    const struct call_of *call;
};

/* Microseconds of two calls and what is made of each pair: a machine that slows down for a while slows both. */
struct rounds {
    double one[ROUNDS], other[ROUNDS], ratio[ROUNDS], less[ROUNDS];
};

/* The two take turns at being first. */
static void take_rounds(struct rounds *t, struct timed a, struct timed b, int repeats)
{
    for (int i = 0; i < ROUNDS; i++) {
        if (i % 2 == 0)
            t->one[i] = time_of(a.in, a.call, repeats);
        t->other[i] = time_of(b.in, b.call, repeats);
        if (i % 2 != 0)
            t->one[i] = time_of(a.in, a.call, repeats);
        t->ratio[i] = t->one[i] / t->other[i];
        t->less[i] = t->one[i] - t->other[i];
    }
}

static void print_times(const char *what, const struct inputs *in, const struct call_of *a, const struct call_of *b,
                        int repeats)
{
    struct rounds t;
    take_rounds(&t, (struct timed){ in, a }, (struct timed){ in, b }, repeats);
    printf("bench: %-48s %s %8.2f us, %s %8.2f us, %.3f\n", what, a->whose, median(t.one), b->whose, median(t.other),
           median(t.ratio));
}

/* What the study takes longer than that of the given times, and its share of the study. */
static void print_share(const char *what, const struct call_of *study, int repeats)
{
    struct rounds t;
    take_rounds(&t, (struct timed){ &manning, study }, (struct timed){ &given, study }, repeats);
    printf("bench: %-48s %s %8.2f us of %8.2f us, %.3f\n", what, study->whose, median(t.less), median(t.one),
           1 - 1 / median(t.ratio));
}

/* How far a search for 14 by blocks would run in each pond. */
static void print_pond(const char *what, const struct inputs *in)
{
    static struct columns rows;
    static struct dry d;
    const struct site *s = &in->edit.site;
    size_t over = over_row(s);
    printf("bench: %-48s last X_i %.3f of all runoff, ", what, (double)pond_top(s) / (double)all_inflow(s));
    if (over <= s->inflow || study_rows(s, &rows) != 0) {
        printf("goes over in row %zu of %zu\n", over, s->inflow);
        return;
    }
    dry_study(&d, s, &rows);
    printf("safe after %zu of %zu blocks of %d rows\n", blocks_run(&d, pond_top(s)), blocks_of(&d), BLOCK);
}

static void print_ponds(void)
{
    print_pond("the pond of the 16 subareas", &large);
    print_pond("their tight pond", &tight);
    print_pond("that of their edit", &tight_edit);
    print_pond("their ample pond", &ample);
    print_pond("their pond that goes over", &full);
    print_pond("the pond of the greatest study", &longest);
    print_pond("its pond that goes over", &longest_full);
    print_pond("the pond of the 4 subareas", &typical);
    print_pond("their tight pond", &typical_tight);
    print_pond("that of their edit", &typical_tight_edit);
}

void benchmark(u64 seed)
{
    make_all(seed);
    print_ponds();
    printf("bench: medians of %d rounds, one process, the same inputs; last, the ratio of the two\n", ROUNDS);
    print_times("a study of 16 subareas, 2,000 rows, 512 weights", &large, &STUDY, &PLAIN_STUDY, 1);
    print_times("an edit of one of the 16", &large, &EDIT, &PLAIN_EDIT, 1);
    print_times("a mark of its last row", &large, &MARK, &PLAIN_MARK, 50);
    print_times("the study of the 16 with an ample pond", &ample, &STUDY, &PLAIN_STUDY, 1);
    print_times("the study of the 16 with a tight pond", &tight, &STUDY, &PLAIN_STUDY, 1);
    print_times("an edit of one of the 16 with a tight pond", &tight_edit, &EDIT, &PLAIN_EDIT, 1);
    print_times("the study of the 16 refused by 14", &full, &STUDY, &PLAIN_STUDY, 1);
    print_times("the greatest study, its pond tight to the end", &longest, &STUDY, &PLAIN_STUDY, 1);
    print_times("an edit of one of its 16", &longest_edit, &EDIT, &PLAIN_EDIT, 1);
    print_times("the greatest study refused by 14", &longest_full, &STUDY, &PLAIN_STUDY, 1);
    print_times("a study of 4 subareas, 480 rows, 15 weights", &typical, &STUDY, &PLAIN_STUDY, 20);
    print_times("an edit of one of the 4", &typical, &EDIT, &PLAIN_EDIT, 1);
    print_times("a mark of its last row", &typical, &MARK, &PLAIN_MARK, 200);
    print_times("the study of the 4 with a tight pond", &typical_tight, &STUDY, &PLAIN_STUDY, 20);
    print_times("an edit of one of the 4 with a tight pond", &typical_tight_edit, &EDIT, &PLAIN_EDIT, 1);
    print_times("that study with sheet and channel segments", &manning, &STUDY, &PLAIN_STUDY, 20);
    print_times("an edit of one of the 4", &manning, &EDIT, &PLAIN_EDIT, 1);
    print_share("the roots of its 12 segments, of the whole study", &STUDY, 20);
    print_share("the roots of its 12 segments, of the whole study", &PLAIN_STUDY, 20);
    print_times("an edit of one of 16, and a new study of 16", &large, &EDIT, &STUDY, 1);
    print_times("an edit of one of 4, and a new study of 4", &typical, &EDIT, &STUDY, 1);
}
