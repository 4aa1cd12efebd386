/* Studies and edits aimed at a search for refusal 14 by blocks of rows: where it begins, where it may stop, where it
   finds a row that goes over. */
#ifndef AIMS_H
#define AIMS_H

#include "site.h"

void aimed_cases(u64 seed);

#endif
