/* The driver's count of cases and differences. A case is one call with all that is judged of it. Assumes nothing. */
#ifndef REPORT_H
#define REPORT_H

#include <stddef.h>
#include <stdint.h>

extern uint64_t cases, differences;

/* The calls, and the judge itself where it is held to a worked number. */
enum call { FORWARD, INVERSE, PLANE_TO_PLANE, CONVERT_RING, AREA2, TURNING_NUMBER, CROSSING, NOZZLE, FIELD_ACCEPT, FIELD_NOZZLE, FIELD_POSITION, JUDGE, CALLS };

/* Counts a case of a call and what it returned. Where it is not `right`, or the call has no such number, counts a difference and prints it with its numbers, for the
   first ten. */
void judge(int right, enum call call, int returned, const char *what, const int64_t *numbers, size_t count);

/* Counts a difference for each number that a call can return and did not: then the inputs tried too little. */
void judge_met(int with_projection);

#endif
