/* Faults for a plain site of 5 subareas and 7 pond rows: one for each refusal number of a study. */
#ifndef FAULTS_H
#define FAULTS_H

#include "site.h"

/* Made in the first, a middle or the last of the places that can have it: 0, 1, 2. */
struct fault {
    int number;
    void (*make)(struct site *s, int where);
};

enum { STUDY_FAULTS = 16 };

extern const struct fault FAULTS[STUDY_FAULTS]; /* in the order of a study */

/* Makes the fault of a number. */
void fault_of(struct site *s, int number, int where);

#endif
