/* Running the sheet program on one file, and holding what it prints to what is due. */
#ifndef HOLD_H
#define HOLD_H

#include "file.h"

enum { TEXT = 1 << 19 };

/* The folder for the files of a case, and the words that run the program, from standard input, one to a line. */
void hold_in(const char *folder);

/* A site, written into a file: its sheet, its refusal, or the fault of a count that is too large. */
void hold_site(const char *kind, struct site *s, struct prng *r);

/* A file with a fault in word i, or behind the last word where i is their number. */
void hold_fault(const char *kind, const struct file *f, size_t i, size_t line, const char *fault);

/* What was held so far, and whether every refusal of a study was among it. */
bool report(void);

#endif
