/* What calls cost in time. */
#ifndef BENCH_H
#define BENCH_H

#include "reference.h"

/* Prints the times of the engine and of the plain one on the same inputs, and their ratios. */
void benchmark(u64 seed);

#endif
