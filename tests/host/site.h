/* A site: everything that is lent to one study, as numbers to be handed over. Random ones are made here. */
#ifndef SITE_H
#define SITE_H

#include <stdbool.h>
#include <stddef.h>
#include <stdint.h>

#include "bridletenon.h"
#include "reference.h"

enum { ROOM = 2304 }; /* most numbers in any list, also in one that is too long */

struct list {
    size_t len;
    u64 at[ROOM];
};

struct site {
    u64 step, first, rule;
    struct list rain, subareas, pond;
    size_t inflow, outflow, storage; /* lengths of the row lists */
};

/* What stands in the row lists. Row k stands at k - 1. */
struct columns {
    u64 inflow[ROOM], outflow[ROOM], storage[ROOM];
};

struct range {
    u64 least, most;
};

/* ---- Random numbers (splitmix64) */

struct prng {
    u64 state;
};

struct prng prng_of(u64 seed, u64 number);
u64 any(struct prng *r);
u64 below(struct prng *r, u64 n);                /* 0 to n - 1 */
u64 between(struct prng *r, u64 least, u64 most);
bool chance(struct prng *r, u64 percent);
u64 nasty(struct prng *r, u64 was);              /* a number beside 'was', or beside some limit */

/* ---- Parts of a site. Places count from 0. */

size_t place(int where, size_t count);               /* the first, a middle, the last of them: 0, 1, 2 */
size_t subarea_count(const struct site *s);
size_t pond_rows(const struct site *s);
u64 *record_at(struct site *s, size_t i);
u64 *patch_at(u64 *record, size_t i);
u64 *segment_at(u64 *record, size_t i);
u64 *some_patch(u64 *record, struct prng *r);        /* one that is read, where the count is good */
u64 *some_segment(u64 *record, struct prng *r);
u64 *pond_row_at(struct site *s, size_t i);
void set_rows(struct site *s, size_t m);             /* the length of all three row lists */
void set_segment(u64 *at, const u64 *numbers);       /* all five of its numbers */
void add_time(u64 *record, u64 seconds);             /* one or two segments of a given velocity, after those it has */
void set_concentration(u64 *record, u64 seconds);    /* the same, and no others */
u64 concentration_of(u64 step, u64 peak);            /* the least Tc whose Tp is at least this, which is above h */
void set_pond(struct site *s, size_t rows, u64 capacity, u64 half, u64 percent);
u64 total_area(const struct site *s);

/* Rain that reaches 'total' as soon as 19 lets it, entry by entry; and entry t 'rise' above the one before, with those
   after it moved by as much. */
void pour(struct site *s, u64 total);
void set_rise(struct site *s, size_t t, u64 rise);

/* Segments by kind: one that passes by either sheet rule, with nothing in its spare numbers; and what number i may be
   by a rule, also a spare one. */
extern const u64 GOOD_SEGMENT[BT_SEGMENT_CHANNEL + 1][BT_SEGMENT_WIDTH];
struct range segment_range(u64 rule, u64 kind, size_t i);
void random_segment(u64 rule, u64 *at, u64 kind, struct prng *r); /* within those; spare numbers stay as they are */
void set_sheet(u64 *record, u64 length);             /* its first segment: a good sheet of this length */

/* Parts of a good record: litter past the counts and in spare numbers, patches of an area together at most 'most', a
   path that 7 allows by the site's rule and 9 to 11 with its step. */
void litter(u64 *record, struct prng *r);
void random_patches(u64 *record, struct prng *r, size_t count, u64 most);
void fitting_path(const struct site *s, u64 *record, struct prng *r);
void fitting_record(const struct site *s, u64 *record, struct prng *r, u64 most); /* all three */

/* A Tc near one that the site's step, or 36,000, forbids; one number, or a sheet segment's place or length, spoilt. */
void spoil_time(const struct site *s, u64 *record, struct prng *r);
void spoil_record(const struct site *s, u64 *record, struct prng *r);

/* ---- Whole sites */

/* Fixed in all but its numbers: 'count' full records, 'rows' pond rows, 12 rows, 8 rain steps. Accepted with a step of
   120 or of 300 and by either sheet rule, and the pond holds all the water. */
void plain_site(struct site *s, struct prng *r, size_t count, size_t rows);

/* As an engineer might hand it in; most are accepted. */
void likely_site(struct site *s, struct prng *r);

/* 2,000 rows, 16 subareas of 512 weights each, 64 pond rows. */
void large_site(struct site *s, struct prng *r);

/* A likely site with one to three numbers, lengths or orders spoilt. */
void hostile_site(struct site *s, struct prng *r);

#endif
