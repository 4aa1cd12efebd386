/* Edits made on purpose, and chains of them. */
#ifndef EDITS_H
#define EDITS_H

#include "edit.h"

void chosen_edits(u64 seed);

/* A likely study, then so many edits, each of what the one before left, and a mark after each of them. */
void chain_of_edits(struct prng *r, u64 edits);
u64 chain_cases(u64 edits);

/* A large study, one edit of it, and marks. */
void large_chain(struct prng *r);
enum { LARGE_EDITS = 1 };

#endif
