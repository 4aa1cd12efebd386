/* Edits, and studies of the lists that they leave, of the greatest size: 16 subareas of 512 weights with sheet and
   channel flow, 2,000 rows, 2,000 rain steps, 64 pond rows. */
#ifndef GREATEST_H
#define GREATEST_H

#include "edit.h"

/* Ample: a search for 14 need not begin. Tight: no more than is needed, so that it runs to the last row. Full: one
   less, so that a row goes over. */
enum pond { AMPLE, TIGHT, FULL };

/* An edit of rows that stand, whose first changed row is this, from 1. Gives whether it came out as it should. */
bool greatest_edit(struct edit *e, size_t changed, enum pond pond);

#endif
