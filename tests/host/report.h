/* A case in print, to be worked again by hand. */
#ifndef REPORT_H
#define REPORT_H

#include "call.h"

/* 'whole': every row, and not only those from the first that differs on. */
void print_study(const struct call *c, const struct site *s, const struct result *due, bool whole);
void print_inflow(const struct call *c, const struct site *s, const struct result *due, bool whole);
void print_edit(const struct call *c, const struct edit *e, const struct result *due, bool whole);
void print_mark(const struct call *c, const struct mark *m, const struct result *due);

#endif
