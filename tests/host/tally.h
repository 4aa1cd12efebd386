/* How the cases of a run ended. */
#ifndef TALLY_H
#define TALLY_H

#include "call.h"

void count_study(const struct site *s, const struct result *due);
void count_inflow(const struct site *s, const struct result *study, const struct result *due); /* of the site's study */
void count_edit(const struct edit *e, const struct result *due);
void count_mark(const struct mark *m, const struct result *due);

/* Of cases that are aimed at the search for 14, besides: how it goes by blocks. */
void count_aimed_study(const struct site *s, const struct result *due);
void count_aimed_edit(const struct edit *e, const struct result *due);

/* Prints the counts; gives whether every one of them is above 0. */
bool print_tally(void);

#endif
