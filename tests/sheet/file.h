/* A study's file (docs/SHEET.md): the words of a site, each with what it is called, and where it stands. */
#ifndef FILE_H
#define FILE_H

#include "site.h"

enum { WORDS = 4096, NAME = 64, LONGEST = 65536 };

struct word {
    char text[24], name[NAME];
    u64 most; /* of a count: the greatest that is read. UINT64_MAX of any other number */
    const char *limit; /* and what a message tells in its stead */
    size_t line; /* from 1, once written */
};

struct file {
    size_t count, len, end; /* words; bytes; the line in which the file ends */
    struct word words[WORDS];
    char bytes[LONGEST];
};

/* Makes of a site what a file can say: row lists of one length, whole records, whole pond rows. */
void sayable(struct site *s);

/* How many numbers of a segment stand in a file: all of kinds 4 and 5, kind, length and rate of every other. */
size_t segment_numbers(u64 kind);

/* The words of a site that is sayable. Numbers within the counts only, and no more than a record has. */
void words_of(const struct site *s, struct file *f);

/* Writes the words, with blanks, ends of lines and comments between them. Gives false where they are too long. */
bool write_words(struct file *f, struct prng *r);

/* The first count that is larger than can be read, or NULL. */
const struct word *too_large(const struct file *f);

#endif
