/* A mark as it is asked. */
#ifndef MARK_H
#define MARK_H

#include "found.h"

/* Of the site only step, first row number, pond and the lengths of the row lists are lent. */
struct mark {
    struct site site;
    struct columns found;
    u64 row; /* from 1 */
};

/* A mark of any site, with any rows; accepted where the site allows it, often. */
void mark_of(struct mark *m, const struct site *s, struct prng *r);

#endif
