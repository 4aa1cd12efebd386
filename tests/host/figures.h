/* The reference held to document 01's 'Figures to check by', to worked inputs of docs/DECISIONS.md, and to known times
   of sheet and channel segments. */
#ifndef FIGURES_H
#define FIGURES_H

#include "site.h"

/* Sheet and channel segments whose times are exact: at T the two sides of the rule are equal. */
struct timed {
    u64 segment[BT_SEGMENT_WIDTH], seconds;
};

enum { EXACT_TIMES = 18 };
extern const struct timed EXACT[EXACT_TIMES];

/* Prints each figure that does not hold; gives how many. */
int figures_wrong(void);
int figures_tried(void);

#endif
