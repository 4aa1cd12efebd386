/* What a call costs in stack. */
#ifndef STACK_H
#define STACK_H

#include "reference.h"

/* Prints the most stack that a call of each entry takes, of the greatest ones and of a few likely and large ones, and
   holds it to the entry's bound. Each entry is counted as a case of the run, and one above its bound as a case that
   differs. */
void hold_stack(u64 seed);

#endif
