/*
 * The engine as a C programmer might write it who wants it quick and plain: sums of 64 bits, a segment's time, weights
 * and depths worked once a subarea, rows routed once. The benchmark holds the engine's time to it; every case of the
 * test holds it to the reference. Parameters and answers are those of the functions of bridletenon.h.
 */
#ifndef PLAIN_H
#define PLAIN_H

#include "bridletenon.h"

uint64_t plain_study(uint64_t step, uint64_t first, uint64_t rule, const uint64_t *rain, size_t rain_len,
                     const uint64_t *subareas, size_t subareas_len, const uint64_t *pond, size_t pond_len,
                     uint64_t *inflow, size_t inflow_len, uint64_t *outflow, size_t outflow_len, uint64_t *storage,
                     size_t storage_len, uint64_t answer[BT_ANSWER_LENGTH]);

uint64_t plain_edit(uint64_t step, uint64_t first, uint64_t rule, const uint64_t *rain, size_t rain_len,
                    const uint64_t *subareas, size_t subareas_len, const uint64_t *pond, size_t pond_len,
                    uint64_t *inflow, size_t inflow_len, uint64_t *outflow, size_t outflow_len, uint64_t *storage,
                    size_t storage_len, uint64_t place, const uint64_t fresh[BT_WIDTH],
                    uint64_t answer[BT_EDIT_ANSWER_LENGTH], int64_t changes[BT_CHANGES_LENGTH]);

uint64_t plain_mark(uint64_t step, uint64_t first, const uint64_t *pond, size_t pond_len, const uint64_t *inflow,
                    size_t inflow_len, const uint64_t *outflow, size_t outflow_len, const uint64_t *storage,
                    size_t storage_len, uint64_t row, uint64_t answer[BT_MARK_ANSWER_LENGTH],
                    double values[BT_VALUES_LENGTH]);

#endif
