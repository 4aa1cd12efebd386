/* Cases made on purpose: every limit, every order, every refusal, and what lies just beside them. */
#ifndef CASES_H
#define CASES_H

#include "site.h"

void chosen_cases(u64 seed);

#endif
