/*
 * An independent judge of fields: what request (i) of document 02 says of an outer ring, its inner rings and a point. It takes from ring_judge what is said of
 * one ring and whether two edges share a point, and shares nothing with the crates. Every pair of edges and every corner is asked, as the words have it, where
 * a program may know that a box holds off many edges or that one corner decides. Assumes a compiler with __int128.
 */
#ifndef FIELD_JUDGE_H
#define FIELD_JUDGE_H

#include <stddef.h>
#include <stdint.h>

#include "ring_judge.h"

/* A field as the calls get it. */
struct field {
    const uint32_t *counts; /* the corners of each ring, the outer one first */
    size_t rings;
    const int64_t *corners; /* those of all rings, one ring after the other */
    size_t numbers;
};

struct field_verdict {
    int accept;       /* 0, 6, 7, 8, 9, 15 or 16 */
    int64_t where[4]; /* on 9 the ring, its edges and the pairs of edges looked at in it */
    int position;     /* 0, 6, 7, 8 or 16: of a field that was accepted before, 9 and 15 are not asked */
};

/* The verdict by one of the two ways of ring_judge. */
struct field_verdict judge_field(const struct field *field, const struct ring_way *way);

/* Where a point stands to a field that `position` does not refuse: 0 shut, 1 open, 2 border. */
int64_t judge_standing(const struct field *field, const struct ring_way *way, int64_t px, int64_t py);

/* Whether there is a ring and the counts make just so many numbers. */
int judge_adds_up(const struct field *field);

/* Of such a field: the numbers of a ring, and how many they are. */
const int64_t *ring_of(const struct field *field, size_t ring, size_t *count);

#endif
