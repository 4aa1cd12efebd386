#include "tally.h"

#include <inttypes.h>
#include <stdio.h>

#include "dry.h"

enum { LAST_REFUSAL = BT_REFUSED_RULE };

/* How a search for 14 by blocks ends that finds none: it is not begun, ends with its only block, with the first of
   several, with one between, with the last. Where it finds one: the first row looked at, one between, the last with
   inflow. */
enum { NOT_BEGUN, ONLY_BLOCK, FIRST_BLOCK, LATER_BLOCK, LAST_BLOCK, SEARCH_ENDS };
enum { OVER_FIRST, OVER_BETWEEN, OVER_LAST, OVER_ROWS };

struct searches {
    u64 cases, ends[SEARCH_ENDS], over[OVER_ROWS];
    u64 rows[3]; /* fewer than a block, whole blocks, one more */
};

static struct {
    u64 study[LAST_REFUSAL + 1], edit[LAST_REFUSAL + 1], mark[LAST_REFUSAL + 1]; /* by refusal number, 0 for done */
    u64 inflow[LAST_REFUSAL + 1]; /* inflow rows alone, the same */
    u64 longer[3];                /* of them refused with 1: inflow alone is one row longer, outflow, storage */
    u64 pond[LAST_REFUSAL + 1];   /* of them done, by the refusal number of the study */
    u64 rain[4];                  /* subareas of those: one rain step, fewer than the weights, as many, more */
    u64 rows[3];                  /* fewer rows than weights, as many, more */
    u64 last[2];                  /* the last piece within the rows, past them */
    u64 runs[2];                  /* no runoff, some */
    u64 whole[2];                 /* done inflow rows of less than the greatest size, of that */
    u64 full[3];                  /* studies refused with 14 at the first row, between, the last */
    u64 fresh[LAST_REFUSAL + 1];  /* edits refused for the altered list alone */
    u64 done[3];                  /* done edits: no row changed, the first on, a later one on */
    u64 row[LAST_REFUSAL + 1][3]; /* edits refused at a row: before the first changed, from it on, with none changed */
    u64 records[3];               /* studies of whole records: none, 1 to 16, more */
    u64 early[2];                 /* of more: refused before 5, with 5 */
    u64 segments[BT_SEGMENT_CHANNEL + 1]; /* of done studies, by kind */
    u64 tenths[2];                /* curve numbers of done studies: whole ones, others */
    u64 moved[3];                 /* done edits: the curve number kept, moved within a whole number, by more */
    u64 rule[BT_RULE_WINTR55 + 1];        /* done studies, by sheet rule */
    u64 edit_rule[BT_RULE_WINTR55 + 1];   /* done edits */
    u64 too_long[3];              /* 7 by rule 2 alone: of studies, of edits for the list, for the altered list */
    u64 sheet[4];                 /* done edits: no sheet segment, one taken away, one brought, one kept */
    u64 kind[3];                  /* marks that are nothing, an outflow, a peak */
    u64 asked[2];                 /* marks refused with 17 at the row asked, at another */
    struct searches study_search, edit_search; /* aimed cases */
    u64 aimed_rain[3];            /* aimed studies, the first subarea: rain shorter than the weights, as long, longer */
    u64 aimed_from[5];            /* aimed edits: row 1 changes first, another of the first block, later, last; none */
} tally;

static void count_records(const struct site *s, const struct result *due)
{
    size_t count = subarea_count(s);
    if (s->subareas.len % BT_WIDTH != 0)
        return;
    tally.records[count == 0 ? 0 : count <= BT_MOST_SUBAREAS ? 1 : 2]++;
    if (count > BT_MOST_SUBAREAS)
        tally.early[due->gave == BT_REFUSED_SUBAREAS]++;
}

static void count_segments(const u64 *record)
{
    for (u64 i = 0; i < record[BT_SEGMENT_COUNT]; i++)
        tally.segments[record[BT_SEGMENTS + BT_SEGMENT_WIDTH * i]]++;
}

static struct refusal list_refusal(const struct site *s, u64 rule)
{
    return reference_list_refusal(s->step, rule, s->subareas.at, s->subareas.len);
}

/* Of a list that is refused with 7: whether rule 1 would let this subarea pass. */
static bool for_rule(const struct site *s, u64 place)
{
    struct refusal other = list_refusal(s, BT_RULE_TR55);
    return other.number != BT_REFUSED_SEGMENTS || other.place != place;
}

static void count_done_study(const struct site *s)
{
    tally.rule[s->rule]++;
    for (size_t i = 0; i < subarea_count(s); i++) {
        const u64 *record = s->subareas.at + BT_WIDTH * i;
        count_segments(record);
        tally.tenths[reference_tenths(record) % 10 != 0]++;
    }
}

void count_study(const struct site *s, const struct result *due)
{
    u64 place = due->answer[BT_PLACE];
    count_records(s, due);
    tally.study[due->gave]++;
    if (due->gave == 0)
        count_done_study(s);
    if (due->gave == BT_REFUSED_SEGMENTS && for_rule(s, place))
        tally.too_long[0]++;
    if (due->gave == BT_REFUSED_FULL)
        tally.full[place == 1 ? 0 : place < s->inflow ? 1 : 2]++;
}

/* ---- Inflow rows alone */

static void count_longer(const struct site *s)
{
    const size_t lengths[] = { s->inflow, s->outflow, s->storage };
    for (int i = 0; i < 3; i++) {
        size_t one = lengths[(i + 1) % 3], two = lengths[(i + 2) % 3];
        tally.longer[i] += one == two && lengths[i] == one + 1 && 1 <= one && one < BT_MOST_ROWS;
    }
}

/* Gives whether it has as many weights as there may be. */
static bool count_pieces(const struct site *s, const u64 *record)
{
    u64 n = s->rain.len - 1, m = s->inflow, rain = s->rain.at[n];
    u64 weights = 5 * reference_peak(s->step, reference_concentration(record)) / s->step;
    tally.rain[n == 1 ? 0 : n < weights ? 1 : n == weights ? 2 : 3]++;
    tally.rows[m < weights ? 0 : m == weights ? 1 : 2]++;
    tally.last[n + weights - 1 > m]++;
    tally.runs[reference_runoff(reference_tenths(record), rain) != 0]++;
    return weights == 512;
}

static void count_done_inflow(const struct site *s)
{
    size_t full = 0;
    for (size_t i = 0; i < subarea_count(s); i++)
        full += count_pieces(s, s->subareas.at + BT_WIDTH * i);
    tally.whole[full == BT_MOST_SUBAREAS && s->inflow == BT_MOST_ROWS && s->rain.len == BT_MOST_ROWS + 1]++;
}

void count_inflow(const struct site *s, const struct result *study, const struct result *due)
{
    tally.inflow[due->gave]++;
    if (due->gave == BT_REFUSED_ROWS)
        count_longer(s);
    if (due->gave != 0)
        return;
    tally.pond[study->gave]++;
    count_done_inflow(s);
}

/* ---- Edits and marks */

/* The first row that the edit changes, were it done: 0 if none. */
static u64 would_change(const struct edit *e)
{
    u64 old[ROOM], new[ROOM];
    const struct site *s = &e->site;
    reference_parts(s->step, s->rain.at, s->rain.len, s->subareas.at + BT_WIDTH * (e->place - 1), old, s->inflow);
    reference_parts(s->step, s->rain.at, s->rain.len, e->fresh, new, s->inflow);
    for (size_t k = 0; k < s->inflow; k++)
        if (old[k] != new[k])
            return k + 1;
    return 0;
}

static void count_row(const struct edit *e, const struct result *due)
{
    u64 first = would_change(e);
    tally.row[due->gave][first == 0 ? 2 : due->answer[BT_PLACE] < first ? 0 : 1]++;
}

static bool has_sheet(const u64 *record)
{
    return record[BT_SEGMENTS] == BT_SEGMENT_SHEET;
}

/* Within a whole number: the two are one when they are rounded to it. */
static void count_moved(u64 was, u64 is)
{
    tally.moved[was == is ? 0 : (was + 5) / 10 == (is + 5) / 10 ? 1 : 2]++;
}

static void count_done(const struct edit *e, const struct result *due)
{
    const u64 *old = e->site.subareas.at + BT_WIDTH * (e->place - 1);
    tally.done[due->answer[BT_CHANGED] < 2 ? due->answer[BT_CHANGED] : 2]++;
    tally.sheet[has_sheet(old) + 2 * has_sheet(e->fresh)]++;
    count_moved(reference_tenths(old), reference_tenths(e->fresh));
    tally.edit_rule[e->site.rule]++;
}

/* Refused with one of 6 to 11: for the list as it stands, or for the altered one alone. */
static void count_list(const struct edit *e, const struct result *due)
{
    static struct site other;
    bool fresh = list_refusal(&e->site, e->site.rule).number == 0;
    altered_site(&other, e);
    if (fresh)
        tally.fresh[due->gave]++;
    if (due->gave == BT_REFUSED_SEGMENTS && for_rule(fresh ? &other : &e->site, due->answer[BT_PLACE]))
        tally.too_long[fresh ? 2 : 1]++;
}

void count_edit(const struct edit *e, const struct result *due)
{
    u64 n = due->gave;
    tally.edit[n]++;
    if (n == 0)
        count_done(e, due);
    if (BT_REFUSED_PATCHES <= n && n <= BT_REFUSED_SHORT_STEP)
        count_list(e, due);
    if (n == BT_REFUSED_FULL || n == BT_REFUSED_INFLOW || n == BT_REFUSED_STANDING)
        count_row(e, due);
}

void count_mark(const struct mark *m, const struct result *due)
{
    tally.mark[due->gave]++;
    if (due->gave == 0)
        tally.kind[due->answer[BT_KIND]]++;
    if (due->gave == BT_REFUSED_STANDING)
        tally.asked[due->answer[BT_PLACE] != m->row]++;
}

/* ---- Aimed cases */

static void add_parts(const struct site *s, const u64 *record, u64 *rows)
{
    u64 parts[ROOM];
    reference_parts(s->step, s->rain.at, s->rain.len, record, parts, s->inflow);
    for (size_t k = 0; k < s->inflow; k++)
        rows[k] += parts[k];
}

/* Row numbers from 1; 'first' is the first that is looked at. */
static void count_over(struct searches *t, const u64 *inflow, size_t rows, u64 first, u64 place)
{
    while (rows > 1 && inflow[rows - 1] == 0)
        rows--;
    t->over[place == first ? OVER_FIRST : place < rows ? OVER_BETWEEN : OVER_LAST]++;
}

static void count_end(struct searches *t, const struct dry *d, u64 top)
{
    size_t run = blocks_run(d, top), all = blocks_of(d);
    if (run == 0)
        t->ends[NOT_BEGUN]++;
    else if (all == 1)
        t->ends[ONLY_BLOCK]++;
    else
        t->ends[run == 1 ? FIRST_BLOCK : run < all ? LATER_BLOCK : LAST_BLOCK]++;
}

static void count_aimed(struct searches *t, size_t rows)
{
    t->cases++;
    if (rows < BLOCK)
        t->rows[0]++;
    else if (rows % BLOCK < 2)
        t->rows[1 + rows % BLOCK]++;
}

void count_aimed_study(const struct site *s, const struct result *due)
{
    static struct dry d;
    u64 inflow[ROOM] = { 0 }, n = s->rain.len - 1;
    u64 weights = 5 * reference_peak(s->step, reference_concentration(s->subareas.at)) / s->step;
    count_aimed(&tally.study_search, s->inflow);
    tally.aimed_rain[n < weights ? 0 : n == weights ? 1 : 2]++;
    for (size_t i = 0; i < subarea_count(s); i++)
        add_parts(s, s->subareas.at + BT_WIDTH * i, inflow);
    if (due->gave == BT_REFUSED_FULL)
        count_over(&tally.study_search, inflow, s->inflow, 1, due->answer[BT_PLACE]);
    if (due->gave != 0)
        return;
    dry_study(&d, s, &due->rows);
    count_end(&tally.study_search, &d, pond_top(s));
}

/* The new inflow rows of an edit that passes 16. */
static void new_inflow(const struct edit *e, u64 *inflow)
{
    u64 old[ROOM];
    const struct site *s = &e->site;
    reference_parts(s->step, s->rain.at, s->rain.len, s->subareas.at + BT_WIDTH * (e->place - 1), old, s->inflow);
    for (size_t k = 0; k < s->inflow; k++)
        inflow[k] = e->found.inflow[k] - old[k];
    add_parts(s, e->fresh, inflow);
}

void count_aimed_edit(const struct edit *e, const struct result *due)
{
    static struct dry d;
    u64 inflow[ROOM], m = e->site.inflow, first = would_change(e);
    count_aimed(&tally.edit_search, m);
    tally.aimed_from[first == 0 ? 4 : first == 1 ? 0 : first == m ? 3 : first <= BLOCK ? 1 : 2]++;
    new_inflow(e, inflow);
    if (due->gave == BT_REFUSED_FULL)
        count_over(&tally.edit_search, inflow, m, first, due->answer[BT_PLACE]);
    if (due->gave != 0 || first == 0)
        return;
    dry_edit(&d, e, &due->rows, first - 1);
    count_end(&tally.edit_search, &d, pond_top(&e->site));
}

/* ---- In print */

static bool all; /* counts printed so far are above 0 */

static void print_count(u64 count)
{
    printf(" %8" PRIu64, count);
    all = all && count != 0;
}

/* A count of calls that can end so; a blank for others. */
static void print_end(u64 count, bool possible)
{
    if (possible)
        print_count(count);
    else
        printf(" %8s", "");
}

static bool ends_study(int n)
{
    return n <= BT_REFUSED_FULL || n == BT_REFUSED_RISE || n == BT_REFUSED_RULE;
}

static bool ends_inflow(int n)
{
    return ends_study(n) && (n < BT_REFUSED_POND || n > BT_REFUSED_FULL);
}

static bool ends_edit(int n)
{
    return n != BT_REFUSED_ASKED;
}

static bool ends_mark(int n)
{
    return n <= BT_REFUSED_STEP || n == BT_REFUSED_ROW_NUMBERS || n == BT_REFUSED_POND ||
           n == BT_REFUSED_POND_STORAGE || n == BT_REFUSED_STANDING || n == BT_REFUSED_ASKED;
}

static void print_ends(void)
{
    printf("%-10s %8s %8s %8s %8s\n", "", "studies", "inflows", "edits", "marks");
    for (int n = 0; n <= LAST_REFUSAL; n++) {
        if (n == 0)
            printf("done      ");
        else
            printf("refusal %2d", n);
        print_end(tally.study[n], ends_study(n));
        print_end(tally.inflow[n], ends_inflow(n));
        print_end(tally.edit[n], ends_edit(n));
        print_end(tally.mark[n], ends_mark(n));
        printf("\n");
    }
}

static void print_counts(const char *what, const u64 *counts, int count)
{
    printf("%s:", what);
    for (int i = 0; i < count; i++)
        print_count(counts[i]);
    printf("\n");
}

static void print_inflows(void)
{
    print_counts("inflow rows refused with 1, inflow alone one longer, outflow, storage", tally.longer, 3);
    print_counts("inflow rows done where the study is refused with 12, 13, 14", tally.pond + BT_REFUSED_POND, 3);
    print_counts("their subareas, rain of one step, shorter than the weights, as long, longer", tally.rain, 4);
    print_counts("their subareas, rows fewer than the weights, as many, more", tally.rows, 3);
    print_counts("their subareas, the last piece in a row, past the rows", tally.last, 2);
    print_counts("their subareas, no runoff, some", tally.runs, 2);
    print_counts("inflow rows done of less than the greatest size, of that", tally.whole, 2);
}

static void print_edits(void)
{
    print_counts("edits done, none changed, from row 1, from a later row", tally.done, 3);
    print_counts("edits done, with no sheet segment, one taken away, one brought, one kept", tally.sheet, 4);
    print_counts("edits done, the curve number kept, moved within a whole number, by more", tally.moved, 3);
    print_counts("edits refused for the altered list alone, 6 to 11", tally.fresh + BT_REFUSED_PATCHES, 6);
    print_counts("14 in the tail", tally.row[BT_REFUSED_FULL] + 1, 1);
    print_counts("16 before the first changed row, from it on, where none is", tally.row[BT_REFUSED_INFLOW], 3);
    print_counts("17 before the first changed row, from it on, where none is", tally.row[BT_REFUSED_STANDING], 3);
}

static void print_aimed(const char *what, const struct searches *t)
{
    printf("aimed %s: %" PRIu64 "\n", what, t->cases);
    print_counts("  done, the search for 14 not begun, ended by its only block, the first, a later one, the last",
                 t->ends, SEARCH_ENDS);
    print_counts("  refused with 14 in the first row looked at, between, the last with inflow", t->over, OVER_ROWS);
    print_counts("  of fewer rows than a block, of whole blocks, of one row more", t->rows, 3);
}

bool print_tally(void)
{
    all = true;
    print_ends();
    print_counts("14 of studies at the first row, between, the last", tally.full, 3);
    print_counts("segments of done studies, kinds 1 to 5", tally.segments + BT_SEGMENT_UNPAVED, BT_SEGMENT_CHANNEL);
    print_counts("curve numbers of done studies, whole ones, others", tally.tenths, 2);
    print_counts("studies done by sheet rule 1, by 2", tally.rule + BT_RULE_TR55, 2);
    print_counts("edits done by sheet rule 1, by 2", tally.edit_rule + BT_RULE_TR55, 2);
    print_counts("7 by sheet rule 2 alone, of studies, of edits for the list, for the altered list", tally.too_long, 3);
    print_counts("studies of no record, of 1 to 16, of more", tally.records, 3);
    print_counts("of more, refused before 5, with 5", tally.early, 2);
    print_inflows();
    print_edits();
    print_counts("marks: nothing, an outflow, a peak", tally.kind, 3);
    print_counts("17 of marks at the row asked, at another", tally.asked, 2);
    print_aimed("studies", &tally.study_search);
    print_counts("  rain shorter than the first subarea's weights, as long, longer", tally.aimed_rain, 3);
    print_aimed("edits", &tally.edit_search);
    print_counts("  first changed row 1, another of the first block, in a later one, the last, none", tally.aimed_from,
                 5);
    if (!all)
        printf("something in this table is 0: the cases do not reach it\n");
    return all;
}
