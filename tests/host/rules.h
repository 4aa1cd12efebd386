/* What the reference's study, edit and mark share of document 01: the checks, one by one and by group, and the rows. */
#ifndef RULES_H
#define RULES_H

#include <stdbool.h>

#include "reference.h"

/* A subarea's record: patch count, patches, segment count, segments. */
enum {
    PATCHES_AT = 1,
    PATCH_WIDTH = 3,
    MOST_PATCHES = 8,
    SEGMENTS_AT = PATCHES_AT + PATCH_WIDTH * MOST_PATCHES + 1,
    SEGMENT_WIDTH = 5,
    MOST_SEGMENTS = 6,
    WIDTH = SEGMENTS_AT + SEGMENT_WIDTH * MOST_SEGMENTS
};

enum {
    MOST_SUBAREAS = 16,
    MOST_ROWS = 2000,
    MOST_WEIGHTS = 512
};

/* Everything that is lent to a study and only read, with the lengths of the row lists. */
struct lent {
    u64 step, first, rule;
    const u64 *rain, *subareas, *pond;
    size_t rain_len, subareas_len, pond_len, inflow_len, outflow_len, storage_len;
};

/* The rows as worked, before anything is written. */
struct rows {
    u64 inflow[MOST_ROWS];
    struct state after[MOST_ROWS];
};

bool within(u64 x, u64 least, u64 most);

/* ---- Refusals */

typedef struct refusal check(const struct lent *);

extern const struct refusal PASSED;
struct refusal refuse(bool when, u64 number, u64 place);
struct refusal first_of(check *const *checks, size_t count, const struct lent *s);

check check_rows, check_step, check_last_number; /* 1, 2, 4 */
check run_checks;                                /* 1 to 5, with 20 after 2 and 19 after 3 */
check list_checks;                               /* 6 to 11 */
check pond_checks;                               /* 12, 13 */

/* 17: outflow above the last discharge, storage below h times outflow, or the two together above the last X_i. */
struct refusal check_standing(const struct lent *s, const u64 *outflow, const u64 *storage);

/* ---- Rows */

/* Adds a record's part of each row's inflow volume. */
void add_record(const struct lent *lent, const u64 *record, u64 *rows);

wide sum_of(const u64 *pond_row, u64 half);          /* X_i */
u64 stage_at(const u64 *pond, u64 half, wide x);     /* x is not above the last X_i */

/* Routes the rows' inflow from row 'first' on (from 1); the rows before it stand. Gives 14 at its row. */
struct refusal route_from(const struct lent *s, u64 first, struct rows *rows);

/* Places 2 to 7 of an answer: inflow, released, storage, peak, row, stage. And 8 to 11: the area in each class. */
void row_figures(const struct rows *rows, u64 m, u64 half, u64 *answer);
void class_areas(const struct lent *s, u64 *answer);

void write_rows(const struct rows *rows, u64 m, u64 *inflow, u64 *outflow, u64 *storage);

#endif
