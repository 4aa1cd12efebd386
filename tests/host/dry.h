/*
 * The search for refusal 14 by blocks, worked from the reference's rows: an engine that looks for it by blocks of BLOCK
 * rows may stop once what the pond holds and all that can still come is no more than the last X_i. Here is where it
 * would, and ponds that make it stop where it is wanted. Nothing of the engine is asked.
 */
#ifndef DRY_H
#define DRY_H

#include "edit.h"

enum { BLOCK = 31 }; /* rows of a block */

/* Rows from row 'from' on, counted from 0. */
struct dry {
    size_t from, rows;
    u64 most[ROOM]; /* before row k, and after the last: what the pond holds and all that can still come; never rises */
    u64 x[ROOM];    /* X of row k */
};

u64 all_inflow(const struct site *s); /* all that runs off, also after the last row: no more ever comes in */

/* Of a study whose rows these are; and of an edit that leaves these rows and changes row 'from' first, from 0. */
void dry_study(struct dry *d, const struct site *s, const struct columns *rows);
void dry_edit(struct dry *d, const struct edit *e, const struct columns *rows, size_t from);

/* How many blocks there are, and how many of them run in a pond of this last X_i, in which all the rows pass. */
size_t blocks_of(const struct dry *d);
size_t blocks_run(const struct dry *d, u64 top);
size_t block_start(const struct dry *d, size_t block); /* its first row, from 0; past the last, the number of rows */

u64 greatest_x(const struct dry *d);

/* ---- Ponds */

/* A pond with one discharge above its last row but one, so that where its last row stands changes no row below it. It
   holds as much as there may be. Its other rows are few or many, and hold as little as 13 lets them. */
void open_pond(struct site *s, size_t rows, u64 discharge);

/* Moves the last row of such a pond so that its X_i is this. Gives whether there is such a pond. */
bool cut_pond_at(struct site *s, u64 top);

/* The pond in proportion: its last storage is this, which is at most 10^12. No row is so low that two become one. */
void scale_pond(struct site *s, const struct list *pond, u64 capacity);

#endif
