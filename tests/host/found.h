/* Rows as an edit or a mark may find them: a study's, forged, scrawled, spoilt. */
#ifndef FOUND_H
#define FOUND_H

#include "site.h"

u64 half_step(const struct site *s);
const u64 *last_pond_row(const struct site *s);
u64 pond_top(const struct site *s); /* the last X_i */

/* The rows of the site's study. Gives the refusal number, and leaves the rows be, where it is refused. */
u64 study_rows(const struct site *s, struct columns *rows);

/* Outflow and storage that no study left, within the limits of 17. The pond and the step pass their checks. */
void forge_states(const struct site *s, struct columns *rows, struct prng *r);

/* Any numbers at all. */
void scrawl(struct columns *rows, struct prng *r);

/* Outflow or storage of a row, from 0, at a limit of 17 or one past it. The pond and the step pass their checks. */
void spoil_state(const struct site *s, struct columns *rows, size_t k, struct prng *r);

u64 up_to(struct prng *r, u64 most); /* from 0 to 'most', often at an end */

#endif
