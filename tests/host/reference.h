/*
 * Document 01 (docs/SCOPE.md) once more, in plain C: studies, edits, marks and inflow rows worked from the text of the
 * rules and from nothing of the engine. Slow and plain on purpose. Whole numbers only; sums and products are 128 bits
 * wide, or as long as the powers of sheet and channel flow need them (big.h).
 */
#ifndef REFERENCE_H
#define REFERENCE_H

#include <stddef.h>
#include <stdint.h>

typedef uint64_t u64;
__extension__ typedef __int128 wide;

struct refusal {
    u64 number, place;
};

/* The pond's standing after a row. */
struct state {
    u64 storage, outflow, stage;
};

/* What document 01 names, one function each. They ask that their numbers are within its limits. */
u64 reference_tenths(const u64 *record);                    /* curve number of a subarea's patches, in tenths */
u64 reference_runoff(u64 tenths, u64 rain);                 /* millionths of an inch */
u64 reference_segment(const u64 *segment);                  /* seconds; five numbers, spare ones not read */
u64 reference_concentration(const u64 *record);             /* Tc */
u64 reference_peak(u64 step, u64 concentration);            /* Tp */
u64 reference_weight(u64 peak, u64 step, u64 j);            /* weight j */
u64 reference_volume(u64 area, u64 depth);                  /* thousandths of a cubic foot */

/* One pond row step. Gives 0, and leaves the state be, where X is above the last X_i. */
int reference_step(const u64 *pond, size_t rows, u64 half, u64 inflow, struct state *state);

/* A whole study, with the parameters and the answer of bt_study. */
u64 reference_study(u64 step, u64 first, u64 rule, const u64 *rain, size_t rain_len, const u64 *subareas,
                    size_t subareas_len, const u64 *pond, size_t pond_len, u64 *inflow, size_t inflow_len, u64 *outflow,
                    size_t outflow_len, u64 *storage, size_t storage_len, u64 *answer);

/* A whole edit, with the parameters and the answers of bt_edit. */
u64 reference_edit(u64 step, u64 first, u64 rule, const u64 *rain, size_t rain_len, const u64 *subareas,
                   size_t subareas_len, const u64 *pond, size_t pond_len, u64 *inflow, size_t inflow_len, u64 *outflow,
                   size_t outflow_len, u64 *storage, size_t storage_len, u64 place, const u64 *fresh, u64 *answer,
                   int64_t *changes);

/* A whole mark, with the parameters and the answer of bt_mark, but for inflow, of which nothing but the length is read.
   Its values are the whole numbers that the doubles are to be. */
u64 reference_mark(u64 step, u64 first, const u64 *pond, size_t pond_len, size_t inflow_len, const u64 *outflow,
                   size_t outflow_len, const u64 *storage, size_t storage_len, u64 row, u64 *answer, u64 *values);

/* A record's part of each of m rows' inflow volume. It and the rain are within document 01's limits. */
void reference_parts(u64 step, const u64 *rain, size_t rain_len, const u64 *record, u64 *parts, size_t m);

/* The inflow of each of m rows in the textbook's way. The rain and the subareas are within document 01's limits. */
void reference_textbook(u64 step, const u64 *rain, size_t rain_len, const u64 *subareas, size_t subareas_len, u64 *rows,
                        size_t m);

/* The first of 6 to 11, if any, that refuses a list of 1 to 16 records. The step and the sheet rule pass 2 and 20. */
struct refusal reference_list_refusal(u64 step, u64 rule, const u64 *subareas, size_t subareas_len);

#endif
