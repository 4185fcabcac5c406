/* Makers of rings, fields and points, from the random numbers of random.h. Assumes nothing. */
#ifndef MAKERS_H
#define MAKERS_H

#include <stddef.h>
#include <stdint.h>

#include "lend.h"

/* The largest size of a corner's number, and the widest span of a ring. */
static const int64_t LARGEST = 10000000000, SPAN = 20000000;

/* ---- rings */

/* A random ring of `most` numbers at most into `numbers`, accepted or not; says how many numbers it has. */
size_t random_ring(int64_t *numbers, size_t most);

/* A large ring that is clean, or crossed by one corner alone, into 2,048 numbers; says how many it has. */
size_t pulled_ring(int64_t *numbers);

/* Corners in the order of their direction from 0, 0, no nearer to it than a quarter of `size` and no farther than it: a clean ring, nearly always. */
void star_ring(int64_t *numbers, size_t corners, int64_t size);

/* Corners on a circle round 0, 0, the first one in the direction of corner `from`. */
void circle_ring(int64_t *numbers, size_t corners, int64_t reach, size_t from);

/* The corner that is nearest to a point: drawn there, it crosses the ring least often. */
size_t nearest_corner(const int64_t *ring, size_t corners, const int64_t point[2]);

/* A square with its least corner at x, y, which is the first. */
void square_ring(int64_t *numbers, int64_t x, int64_t y, int64_t width);

void move_ring(int64_t *numbers, size_t count, int64_t x, int64_t y);

/* ---- points */

/* A point that is interesting to the ring: on or beside a corner, in the middle of an edge, somewhere in its box, or anywhere at all. */
void random_point(const int64_t *ring, size_t count, int64_t *px, int64_t *py);

/* ---- fields */

/* The most rings that a made field has, and the most corners that a made ring has. */
enum { MOST_RINGS = 40, MOST_CORNERS = 1030 };

/* Rings one after the other, with the counts that are handed to the calls: after damage these need not be the rings' own. */
struct made_field {
    uint32_t counts[MOST_RINGS];
    size_t rings;
    int64_t corners[LEND_MOST];
    size_t numbers;
};

/* No ring yet. */
void begin_field(struct made_field *made);

/* One ring more; it is left out where there is no room for it. */
void append_ring(struct made_field *made, const int64_t *numbers, size_t corners);

/* The corners of a ring that was appended. */
int64_t *made_ring(struct made_field *made, size_t ring);

/* A random field, accepted or not: ponds of few corners or many in an outer ring, as they are or damaged. */
void random_field(struct made_field *made);

/* The same with 1,024 corners round sixteen times 128. */
void large_field(struct made_field *made);

/* A random field of few corners within 0 to `size`: most coincidences of corners and edges come up here. */
void small_field(struct made_field *made, int64_t size);

/* Makes a ring wrong that is to follow those of the field, in its count, its numbers, its span, crossed or badly placed; says how many corners it has then. */
size_t spoil_ring(struct made_field *before, int64_t *ring, size_t corners);

/* Makes the counts, or how many numbers there are, wrong, also so that sums of 32 bits do not show it. */
void spoil_counts(struct made_field *made);

#endif
