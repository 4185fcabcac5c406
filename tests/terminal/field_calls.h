/* The three field calls on one field, each held to field_judge. Assumes that lend_begin was called. */
#ifndef FIELD_CALLS_H
#define FIELD_CALLS_H

#include "field_judge.h"
#include "makers.h"

/* Lays the field out for the calls, counts and corners each between guard pages, and asks the judge. Says the verdict. */
struct field_verdict lay_field(const struct made_field *made);

/* As it was laid out last. */
const struct field *laid_field(void);

void try_field_accept(void);

/* Nozzle and position at a point. */
void try_field_point(int64_t px, int64_t py);

/* Accept, and so many points near the field's rings: one case and two for each point. */
void try_field(int points);

/* What accept and position owe for a field by a worked example, to which the judge is held first; then the calls. */
void expect_field(const struct made_field *made, int accept, int position);

/* Counts a case of the judge itself, and on a difference prints the field. */
void expect_judge(int right, const char *what);

#endif
