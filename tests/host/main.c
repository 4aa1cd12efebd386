/*
 * Holds the engine's C interface to an independent reading of document 01, on chosen, random and large cases.
 *
 *   --seed N    another seed (default 1)
 *   --cases N   how many random small sites, each a study, an edit and a mark (default 50000)
 *   --chains N  how many chains: a study, then 3 to 8 edits, each of what the one before left, and marks
 *               (default 6000)
 *   --large N   how many large studies, each with an edit and marks (default 200)
 *   --only N    case N alone, and all of it printed
 *   --bench     times the engine and the plain one of plain.c instead
 */
#include <inttypes.h>
#include <signal.h>
#include <stdio.h>
#include <stdlib.h>
#include <string.h>
#include <unistd.h>

#include "aims.h"
#include "bench.h"
#include "cases.h"
#include "edits.h"
#include "figures.h"
#include "marks.h"
#include "rules.h"
#include "stack.h"
#include "take.h"
#include "tally.h"

_Static_assert(BT_ANSWER_LENGTH == 12 && BT_EDIT_ANSWER_LENGTH == 13 && BT_CHANGES_LENGTH == 2, "answers");
_Static_assert(BT_MARK_ANSWER_LENGTH == 3 && BT_VALUES_LENGTH == 5, "a mark's answer");
_Static_assert(BT_INFLOW_ANSWER_LENGTH == 2 && BT_REFUSAL == 0 && BT_PLACE == 1, "the answer of inflow rows alone");
_Static_assert(sizeof(bt_subarea) == BT_WIDTH * sizeof(u64), "a record");
_Static_assert(offsetof(bt_subarea, patch_count) == BT_PATCH_COUNT * sizeof(u64), "patch count");
_Static_assert(offsetof(bt_subarea, patches) == BT_PATCHES * sizeof(u64), "patches");
_Static_assert(offsetof(bt_subarea, segment_count) == BT_SEGMENT_COUNT * sizeof(u64), "segment count");
_Static_assert(offsetof(bt_subarea, segments) == BT_SEGMENTS * sizeof(u64), "segments");
_Static_assert(sizeof(bt_patch) == BT_PATCH_WIDTH * sizeof(u64) && sizeof(bt_segment) == BT_SEGMENT_WIDTH * sizeof(u64),
               "patches and segments");

#define STANDS_AT(member, place) \
    _Static_assert(offsetof(bt_segment, member) == (place) * sizeof(u64), "a segment's " #member)
STANDS_AT(kind, BT_KIND_AT);
STANDS_AT(length, BT_LENGTH_AT);
STANDS_AT(by.shallow.slope, BT_SHALLOW_SLOPE_AT);
STANDS_AT(by.given.velocity, BT_GIVEN_VELOCITY_AT);
STANDS_AT(by.sheet.n, BT_SHEET_N_AT);
STANDS_AT(by.sheet.rain, BT_SHEET_RAIN_AT);
STANDS_AT(by.sheet.slope, BT_SHEET_SLOPE_AT);
STANDS_AT(by.channel.n, BT_CHANNEL_N_AT);
STANDS_AT(by.channel.radius, BT_CHANNEL_RADIUS_AT);
STANDS_AT(by.channel.slope, BT_CHANNEL_SLOPE_AT);
STANDS_AT(by.numbers[BT_SEGMENT_WIDTH - 3], BT_SEGMENT_WIDTH - 1);

_Static_assert(WIDTH * sizeof(u64) == sizeof(bt_subarea) && SEGMENTS_AT * sizeof(u64) == offsetof(bt_subarea, segments),
               "the reference's record");
_Static_assert(ROOM >= (BT_MOST_SUBAREAS + 2) * BT_WIDTH && ROOM > BT_MOST_ROWS + 2, "room for too long a list");

/* ---- Running cases. Random ones start from the number of their first case. */

static void random_site(const char *kind, void (*make)(struct site *, struct prng *))
{
    static struct site s;
    if (!wanted(SITE_CASES))
        return;
    struct prng r = prng_of(run.seed, run.number + 1);
    s = (struct site){ 0 };
    make(&s, &r);
    take_site(kind, &s);
}

static void random_chain(u64 edits)
{
    struct prng r = prng_of(run.seed, run.number + 1);
    if (wanted(chain_cases(edits)))
        chain_of_edits(&r, edits);
}

static void random_large(void)
{
    struct prng r = prng_of(run.seed, run.number + 1);
    if (wanted(chain_cases(LARGE_EDITS)))
        large_chain(&r);
}

static void run_cases(void)
{
    chosen_cases(run.seed);
    chosen_edits(run.seed);
    chosen_marks(run.seed);
    printf("%" PRIu64 " chosen cases\n", run.number);
    for (u64 i = 0; i < run.large; i++)
        random_large();
    for (u64 i = 0; i < run.chains; i++)
        random_chain(3 + i % 6);
    for (u64 i = 0; i < run.sites; i++)
        if (i % 2 == 0)
            random_site("likely", likely_site);
        else
            random_site("hostile", hostile_site);
    aimed_cases(run.seed); /* last, so that the random ones have the numbers that they had */
}

static void say_where(int signal_number)
{
    char line[128];
    int len = snprintf(line, sizeof line, "host: signal %d in case %" PRIu64 " of seed %" PRIu64 "\n", signal_number,
                       run.number, run.seed);
    if (write(STDOUT_FILENO, line, (size_t)len) < 0)
        _exit(3);
    _exit(1);
}

static void watch_signals(void)
{
    signal(SIGSEGV, say_where);
    signal(SIGBUS, say_where);
    signal(SIGILL, say_where);
    signal(SIGFPE, say_where);
}

/* ---- Words */

static void usage(void)
{
    fprintf(stderr, "words: --seed N, --cases N, --chains N, --large N, --only N, --bench\n");
    exit(2);
}

static u64 number_of(const char *word)
{
    char *end;
    if (!word || *word < '0' || *word > '9')
        usage();
    u64 n = strtoull(word, &end, 10);
    if (*end != '\0')
        usage();
    return n;
}

/* Gives whether the benchmark is asked for. */
static bool read_words(char **words)
{
    static const struct {
        const char *word;
        u64 *to;
    } known[] = { { "--seed", &run.seed },   { "--cases", &run.sites }, { "--chains", &run.chains },
                  { "--large", &run.large }, { "--only", &run.only } };
    size_t count = sizeof known / sizeof *known;
    bool bench = false;
    while (*++words) {
        size_t i = 0;
        if (strcmp(*words, "--bench") == 0) {
            bench = true;
            continue;
        }
        while (i < count && strcmp(*words, known[i].word) != 0)
            i++;
        if (i == count)
            usage();
        *known[i].to = number_of(*++words);
    }
    return bench;
}

int main(int count, char **words)
{
    (void)count;
    setvbuf(stdout, NULL, _IOLBF, 0);
    bool bench = read_words(words);
    if (bt_interface() != BT_INTERFACE) {
        printf("host: the engine's interface is %" PRIu64 ", the header's %d\n", bt_interface(), BT_INTERFACE);
        return 1;
    }
    call_open(&call);
    if (bench) {
        benchmark(run.seed);
        return 0;
    }
    int wrong = figures_wrong();
    printf("reference: %d figures of document 01, %d do not hold\n", figures_tried(), wrong);
    watch_signals();
    run_cases();
    bool all = run.only != 0 || print_tally();
    if (!run.only)
        hold_stack(run.seed);
    printf("host: %" PRIu64 " cases, %" PRIu64 " differ\n", run.taken, run.differ);
    return run.differ != 0 || wrong != 0 || !all;
}
