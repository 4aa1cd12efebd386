/* What the sheet program must print, written from the reference's answer and rows and from the site's own numbers. */
#ifndef PAPER_H
#define PAPER_H

#include "site.h"

/* The sheet of a site's study, or the line that says why it is refused. Gives the refusal's number, 0 for a sheet.
   'text' is as long as 'room'. */
u64 paper(const struct site *s, char *text, size_t room);

#endif
