/*
 * Takes cases: each makes a call, works the same by the reference, compares the two, and is counted. A study or an edit
 * of whole records is called twice: with the flat list, and with the list of records, which is held to the same. So is
 * the plain engine of the benchmark. With a study go the inflow rows of its site alone, by both engines.
 */
#ifndef TAKE_H
#define TAKE_H

#include "call.h"

/* What a run is asked for, and how far it has come. */
struct run {
    u64 seed, sites, chains, large, only; /* only: 0 for all */
    u64 number, taken, differ;
};

extern struct run run;
extern struct call call;

/* Whether one of the next 'count' cases is to be taken; where none is, they are passed over. */
bool wanted(u64 count);

/* Each of these gives what is due, which holds until the next case. */
const struct result *take_study(const char *kind, const struct site *s);
const struct result *take_edit(const char *kind, const struct edit *e);

const struct result *take_mark(const char *kind, const struct mark *m);

/* An edit of rows that stand on their list, with the figures they have: it is held to a new study, too, by the edit's
   sheet rule or by the one that is named. */
const struct result *take_standing(const char *kind, const struct edit *e, const u64 *before);
const struct result *take_standing_by(const char *kind, const struct edit *e, const u64 *before, u64 rule);

/* A site in every function: a study of it, then an edit, then a mark. */
enum { SITE_CASES = 3 };
void take_site(const char *kind, const struct site *s);

#endif
