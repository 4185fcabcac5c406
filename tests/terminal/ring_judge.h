/*
 * An independent judge of rings: what document 01 says of a list of numbers and a point, in whole numbers of 128 bits. It shares nothing with the crates, and
 * where the rules leave a choice of computing it takes another way than a program that is fast: the doubled area is summed as printed, untranslated; sharing a
 * point is solved for the two places along the lines; a fold is two neighbours that set out in one direction from their common corner.
 * Assumes a compiler with __int128.
 */
#ifndef RING_JUDGE_H
#define RING_JUDGE_H

#include <stddef.h>
#include <stdint.h>

struct ring_verdict {
    int refusal;            /* 0, 6, 7 or 8 */
    int64_t area2;          /* where it is not refused */
    int crossed;            /* whether 9 is given, and its edges */
    int64_t low, high;
    int64_t looked;         /* the pairs of edges looked at, one by one in the order of 01: all of a clean ring's */
};

/* The checks and the area; the crossing as well where it is asked for, since it takes a number of steps that grows with the square of the count. */
struct ring_verdict judge_ring(const int64_t *numbers, size_t count, int with_crossing);

/* Of a ring that 6, 7 and 8 accept: the turning number at a point, and whether the point lies on an edge. */
int64_t judge_turning(const int64_t *numbers, size_t count, int64_t px, int64_t py);
int judge_border(const int64_t *numbers, size_t count, int64_t px, int64_t py);

/* The crossing by the rule's own words, whole m > 0 and i, j from 0 to m tried one after the other: only for small corners, as those within 0 to 6. */
void judge_crossing_by_search(const int64_t *numbers, size_t count, struct ring_verdict *verdict);

/* What is asked of rings that 6, 7 and 8 accept, answered in one of two ways that have to agree. The turning number is asked only off the ring's border. */
struct ring_way {
    void (*crossing)(const int64_t *numbers, size_t count, struct ring_verdict *verdict);
    int (*meeting)(const int64_t *numbers, size_t count, const int64_t *others, size_t other_count); /* whether an edge of each share a point */
    int (*border)(const int64_t *numbers, size_t count, int64_t px, int64_t py);
    int64_t (*turning)(const int64_t *numbers, size_t count, int64_t px, int64_t py);
};

/* By computing, for all corners; and for small ones by the words of 01, with the turning number by the angles under which the point sees the edges. */
extern const struct ring_way BY_COMPUTING, BY_SEARCH;

#endif
