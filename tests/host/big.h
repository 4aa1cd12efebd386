/*
 * Whole numbers that outgrow 128 bits, in decimal limbs: as much of them as the powers of sheet and channel flow need.
 * All of it stands in this header, so that whoever links reference.c has it.
 */
#ifndef BIG_H
#define BIG_H

#include <stdbool.h>
#include <stddef.h>
#include <stdint.h>

enum {
    LIMB = 1000000000, /* each limb is below it */
    LIMBS = 9          /* 81 digits: the greatest right side has 68, and a left one may pass it by one factor */
};

/* The limbs in use, lowest first; the highest of them is not 0. */
struct big {
    size_t len;
    uint64_t limb[LIMBS];
};

static const struct big BIG_ONE = { 1, { 1 } };

/* Multiplies by a factor of 1 to 2^32 - 1. */
static inline void big_times(struct big *b, uint64_t factor)
{
    uint64_t carried = 0;
    for (size_t i = 0; i < b->len; i++) {
        uint64_t product = b->limb[i] * factor + carried;
        b->limb[i] = product % LIMB;
        carried = product / LIMB;
    }
    for (; carried > 0; carried /= LIMB)
        b->limb[b->len++] = carried % LIMB;
}

/* Multiplies by a power of such a factor. */
static inline void big_times_power(struct big *b, uint64_t factor, int power)
{
    while (power-- > 0)
        big_times(b, factor);
}

static inline bool big_at_most(const struct big *a, const struct big *b)
{
    if (a->len != b->len)
        return a->len < b->len;
    size_t i = a->len - 1;
    while (i > 0 && a->limb[i] == b->limb[i])
        i--;
    return a->limb[i] <= b->limb[i];
}

#endif
