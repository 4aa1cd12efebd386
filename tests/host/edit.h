/* An edit as it is asked. Random ones are made here. */
#ifndef EDIT_H
#define EDIT_H

#include "found.h"

struct edit {
    struct site site;
    struct columns found; /* rows that a study left, or forged ones */
    u64 place, fresh[BT_WIDTH];
};

u64 *old_record(struct edit *e); /* the first where the place is not in the list */

/* ---- Rows as found. A site is workable where a study of it is done, or refused by 14 alone. */

u64 stand(struct edit *e); /* as study_rows */

/* Rows that no study left, within the limits of 16 and 17; on a workable site. */
void forge(struct edit *e, struct prng *r);

/* One number of one row at a limit of 16 or 17, or one past it; on a workable site. */
void spoil_row(struct edit *e, struct prng *r);

/* ---- The new record */

void keep_record(struct edit *e);                    /* the same as stands at the place */
void random_fresh(struct edit *e, struct prng *r);   /* a good one, often much like the old */
void hostile_fresh(struct edit *e, struct prng *r);  /* out of limits or near them, its own or the study's */

/* ---- Whole edits */

/* An edit of any site, with any rows; accepted where the site allows it, often. */
void edit_of(struct edit *e, const struct site *s, struct prng *r);

/* The site as it is after a done edit. */
void altered_site(struct site *to, const struct edit *e);

#endif
