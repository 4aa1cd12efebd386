/* One call of the engine, or of the plain one, between guards, and the same by the reference. */
#ifndef CALL_H
#define CALL_H

#include "edit.h"
#include "lend.h"
#include "mark.h"

/* What is lent to a call. One list serves every function that has it. */
struct call {
    struct lent_list rain, subareas, pond, inflow, outflow, storage, fresh, answer, changes, values;
    u64 gave;
};

/* What is due of any of them. The values are whole numbers: the doubles are to be the same. */
struct result {
    u64 gave, answer[BT_EDIT_ANSWER_LENGTH], values[BT_VALUES_LENGTH];
    int64_t changes[BT_CHANGES_LENGTH];
    struct columns rows;
};

void call_open(struct call *c);

/* ---- A study of a site */

/* 'tight': each list ends at the unreadable pages, with no guard words after it. */
void lend_study(struct call *c, const struct site *s, bool tight);
void engine_study(struct call *c, const struct site *s);
void engine_study_records(struct call *c, const struct site *s); /* the list is whole records */
void plainly_study(struct call *c, const struct site *s);
void study_due(struct result *r, const struct site *s);

/* What is wrong with a call that was made, or null. */
const char *study_fault(const struct call *c, const struct site *s, const struct result *due);

/* ---- The inflow rows of a site alone. Of outflow and storage the lengths are lent, and nothing that can be read. */

void lend_inflow(struct call *c, const struct site *s, bool tight);
void engine_inflow(struct call *c, const struct site *s);
void engine_textbook(struct call *c, const struct site *s);

/* The refusal is that of a study of the site, which is given, but for 12, 13 and 14; the rows are worked in the
   textbook's way. */
void inflow_due(struct result *r, const struct site *s, const struct result *study);

const char *inflow_fault(const struct call *c, const struct site *s, const struct result *due);

/* The same of what is due itself: its rows beside the study's. */
const char *ways_fault(const struct site *s, const struct result *study, const struct result *due);

/* ---- An edit */

void lend_edit(struct call *c, const struct edit *e, bool tight);
void engine_edit(struct call *c, const struct edit *e);
void engine_edit_records(struct call *c, const struct edit *e); /* the list is whole records */
void plainly_edit(struct call *c, const struct edit *e);
void edit_due(struct result *r, const struct edit *e);

const char *edit_fault(const struct call *c, const struct edit *e, const struct result *due);

/* The same of an edit of rows that stand on their list: 'before' has the figures they had, 'anew' is the reference's
   new study of the altered list. */
const char *standing_fault(const struct call *c, const struct edit *e, const u64 *before, const struct result *anew);

/* ---- A mark */

void lend_mark(struct call *c, const struct mark *m, bool tight);
void engine_mark(struct call *c, const struct mark *m);
void plainly_mark(struct call *c, const struct mark *m);
void mark_due(struct result *r, const struct mark *m);

const char *mark_fault(const struct call *c, const struct mark *m, const struct result *due);
double value_of(const struct call *c, size_t i); /* as it was written */

#endif
