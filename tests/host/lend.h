/* Lists as they are lent to the engine: each in a map of its own that ends at pages nobody may read. */
#ifndef LEND_H
#define LEND_H

#include "site.h"

enum { GUARD = 16 }; /* guard words before a list, and after it */

struct lent_list {
    u64 *base, *at;
    size_t len, after; /* words between the list's end and those pages: GUARD, or none */
};

void lend_open(struct lent_list *l);

/* Places a list of 'len' words, guards it, and fills it from 'from' or, where that is null, with words that no study
   would write. 'tight': it ends at the unreadable pages, with no guard words after it. */
void lend(struct lent_list *l, const u64 *from, size_t len, bool tight);

/* Places a list of 'len' words in those pages: a call that reads one of them, or writes to one, ends the test. */
void lend_shut(struct lent_list *l, size_t len);

bool guards_hold(const struct lent_list *l);
bool holds(const struct lent_list *l, const u64 *expected); /* all of it */
bool holds_paint(const struct lent_list *l);                /* what it was lent with where 'from' was null */

#endif
