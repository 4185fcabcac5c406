/* The parts of the driver. Each makes inputs from the random numbers of random.h, calls the library and judges what comes back. Assumes nothing. */
#ifndef CASES_H
#define CASES_H

#include <stddef.h>
#include <stdint.h>

/* The worked numbers of document 01: rings always, points where the projection is judged. */
void known_rings(void);
void known_points(void);

/* Worked fields of request (i) of document 02; and fields made in turn: each refusal at each ring, each two ponds, each edge. */
void known_fields(void);
void swept_fields(void);

/* Random rings: every ring call on each. */
void ring_cases(uint64_t rounds);

/* Random fields: every field call on each. */
void field_cases(uint64_t rounds);

/* Random points: forward, inverse, plane to plane. */
void point_cases(uint64_t rounds);

/* East and west alike: a point and its mirror about the central meridian, forward and back. */
void mirror_forward(uint8_t code, int64_t b, int64_t l);
void mirror_inverse(uint8_t code, int64_t x, int64_t y);

/* Random rings to convert: with the projection, each corner is held to misgwalor_plane_to_plane. */
void conversion_cases(uint64_t rounds);

#endif
