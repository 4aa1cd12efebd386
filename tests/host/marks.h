/* Marks made on purpose. */
#ifndef MARKS_H
#define MARKS_H

#include "mark.h"

void chosen_marks(u64 seed);

#endif
