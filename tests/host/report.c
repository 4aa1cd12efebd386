#include "report.h"

#include <inttypes.h>
#include <stdio.h>

static void print_list(const char *name, const u64 *at, size_t len, size_t width)
{
    printf("  %s, %zu numbers:", name, len);
    for (size_t i = 0; i < len; i++)
        printf("%s%" PRIu64, i % width == 0 ? "\n    " : " ", at[i]);
    printf("\n");
}

static void print_setup(const struct site *s)
{
    printf("  step %" PRIu64 ", first %" PRIu64 ", row lists of %zu, %zu, %zu\n", s->step, s->first, s->inflow,
           s->outflow, s->storage);
}

static void print_site(const struct site *s)
{
    print_setup(s);
    printf("  sheet rule %" PRIu64 "\n", s->rule);
    print_list("rain", s->rain.at, s->rain.len, 20);
    print_list("subareas", s->subareas.at, s->subareas.len, BT_WIDTH);
    print_list("pond", s->pond.at, s->pond.len, BT_POND_WIDTH);
}

/* The rows from the first that differs on, a few of them; or all. */
static void print_column(const char *name, const struct lent_list *got, const u64 *due, bool whole)
{
    size_t k = 0;
    while (!whole && k < got->len && got->at[k] == due[k])
        k++;
    for (size_t end = whole ? got->len : k + 5; k < got->len && k < end; k++)
        printf("  %s row %zu: engine %" PRIu64 ", reference %" PRIu64 "\n", name, k + 1, got->at[k], due[k]);
}

static void print_rows(const struct call *c, const struct columns *due, bool whole)
{
    print_column("inflow", &c->inflow, due->inflow, whole);
    print_column("outflow", &c->outflow, due->outflow, whole);
    print_column("storage", &c->storage, due->storage, whole);
}

static void print_answers(const struct call *c, const struct result *due)
{
    printf("  engine gives back %" PRIu64 ", reference %" PRIu64 "\n", c->gave, due->gave);
    print_list("engine's answer", c->answer.at, c->answer.len, c->answer.len);
    print_list("reference's answer", due->answer, c->answer.len, c->answer.len);
}

void print_study(const struct call *c, const struct site *s, const struct result *due, bool whole)
{
    print_site(s);
    print_answers(c, due);
    if (c->gave == 0 && due->gave == 0)
        print_rows(c, &due->rows, whole);
}

void print_inflow(const struct call *c, const struct site *s, const struct result *due, bool whole)
{
    print_site(s);
    print_answers(c, due);
    if (c->gave == 0 && due->gave == 0)
        print_column("inflow", &c->inflow, due->rows.inflow, whole);
}

static void print_found(const struct site *s, const struct columns *found)
{
    print_list("inflow as found", found->inflow, s->inflow, 10);
    print_list("outflow as found", found->outflow, s->outflow, 10);
    print_list("storage as found", found->storage, s->storage, 10);
}

static void print_changes(const char *whose, const int64_t *changes)
{
    printf("  %s changes: %" PRId64 " %" PRId64 "\n", whose, changes[0], changes[1]);
}

void print_edit(const struct call *c, const struct edit *e, const struct result *due, bool whole)
{
    print_site(&e->site);
    printf("  place %" PRIu64 "\n", e->place);
    print_list("new record", e->fresh, BT_WIDTH, BT_WIDTH);
    print_found(&e->site, &e->found);
    print_answers(c, due);
    print_changes("engine's", (const int64_t *)c->changes.at);
    print_changes("reference's", due->changes);
    print_rows(c, &due->rows, whole);
}

void print_mark(const struct call *c, const struct mark *m, const struct result *due)
{
    print_setup(&m->site);
    print_list("pond", m->site.pond.at, m->site.pond.len, BT_POND_WIDTH);
    print_found(&m->site, &m->found);
    printf("  row asked %" PRIu64 "\n", m->row);
    print_answers(c, due);
    for (size_t i = 0; i < BT_VALUES_LENGTH; i++)
        printf("  value %zu: engine %.17g, reference %" PRIu64 "\n", i, value_of(c, i), due->values[i]);
}
