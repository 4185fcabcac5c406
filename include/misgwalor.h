/*
 * Misgwalor: the terminal's C interface.
 *
 * Link crates/terminal/out/libterminal.a (x86-64), which `rt lib` in crates/terminal proves and writes; examples/nozzle.c is a whole program.
 *
 * Every call answers on every input. It returns 0, and then the memory lent for the answer holds it; or it returns the number of a refusal (the list
 * below), and then the lent memory holds what it held before. Refusal 9, a crossed ring, alone writes something: its two edge numbers and the count of
 * pairs looked at (of a field, which ring it is too), into the places lent for them. A call keeps nothing: no state, no allocation, no file, no lock; calls
 * on different memory may run at the same time.
 *
 * What the caller owes, since C cannot say it and the library cannot check it:
 *  - No pointer is null, also where the length beside it is 0 (any address of its type serves then). Each is aligned as its own type is: `counts` as a
 *    uint32_t, the others as an int64_t.
 *  - `int64_t answer[4]` is a pointer to at least as many numbers as stand in the brackets, all of them readable and writable. The library trusts this
 *    size; sizes that travel beside a pointer (`numbers`, `out_numbers`, `rings`) are counts of what it points to, not of bytes and not of corners, and are
 *    checked: `numbers` and `out_numbers` count int64_t, `rings` the uint32_t of `counts`.
 *  - A code is handed over as eight bits: C itself cuts a larger number to its last eight bits before the call, so 257 arrives as 1.
 *  - Memory that a call writes overlaps no other memory lent to the same call: `out` not `corners`; `answer`, `edges`, `pairs` and `where` not one another.
 *    Memory that is only read may be shared.
 *
 * Units: angles in ticks, whole millionths of an arc second (one degree is 3600000000); plane in whole millimetres, X north and Y east; scale in units
 * of 10^-9; convergence in thousandths of an arc second, positive east of the central meridian. The scale is the grid's, a length in the plane by that on the
 * ellipsoid: the system's m0 is in it, so on the central meridian it is m0 itself, 999923000 in codes 2 to 5. Y on the central meridian is the system's y0:
 * 500000000 in codes 1, 6 and 7; 5500000000, 6500000000, 7500000000, 8500000000 in 2 to 5 and in 10 to 13; 3500000000, 4500000000 in 8, 9; 237000000 in 14.
 *
 * A ring is a list of corners, X and Y of each in turn, so `numbers` is twice the count of corners. The last corner is joined to the first, which is not
 * repeated. Edge k runs from corner k to the next; edges and corners are counted from 0.
 *
 * A field is an outer ring and up to 16 inner ones, its ponds and barns. All corners stand in one list, ring after ring, the outer ring first, and `counts` has
 * the number of corners of each ring: `rings` of them. Rings are counted from 0, the outer one. A field of one ring answers as the ring does.
 *
 * Codes: 1 PL-1992; 2 to 5 PL-2000 (15, 18, 21, 24 degrees); 6, 7 UTM 33N, 34N; 8, 9 1942 six-degree (15, 21); 10 to 13 1942 three-degree (15, 18, 21,
 * 24); 14 1965 zone 5. Codes 1 to 7 lie on GRS-80, 8 to 14 on Krasovsky.
 */
#ifndef MISGWALOR_H
#define MISGWALOR_H

#include <stddef.h>
#include <stdint.h>

#ifdef __cplusplus
extern "C" {
#endif

/* What a call returns: 0, or the number of the refusal. docs/REFUSALS.md says what to do about each. */
#define MISGWALOR_ANSWERED 0
#define MISGWALOR_CODE_UNKNOWN 1       /* a code is not 1 to 14 */
#define MISGWALOR_LATITUDE_OUTSIDE 2   /* B is outside 48 to 56 degrees */
#define MISGWALOR_LONGITUDE_OUTSIDE 3  /* L is farther from the central meridian than the system's half-width */
#define MISGWALOR_PLANE_OUTSIDE 4      /* the plane point lies outside what the system serves */
#define MISGWALOR_ELLIPSOIDS_DIFFER 5  /* the two codes lie on different ellipsoids */
#define MISGWALOR_CORNER_COUNT 6       /* not 3 to 1024 corners (an inner ring: 3 to 128), or not as many numbers as corners need */
#define MISGWALOR_CORNER_NUMBER 7      /* a corner's number is beyond 10^10 mm in size */
#define MISGWALOR_SPAN_TOO_LARGE 8     /* the ring spans more than 20000000 mm in X or in Y */
#define MISGWALOR_RING_CROSSED 9       /* two edges share a point that they may not share */
/* 10 is withdrawn: no call returns it, and it is not used again. */
#define MISGWALOR_OUTPUT_TOO_SHORT 14  /* fewer numbers are lent than the ring has */
#define MISGWALOR_BADLY_PLACED 15      /* an inner ring meets another ring, is not inside the outer one, or lies inside or round another inner one */
#define MISGWALOR_TOO_MANY_RINGS 16    /* a seventeenth inner ring */

/* What a nozzle call answers. */
#define MISGWALOR_NOZZLE_SHUT 0
#define MISGWALOR_NOZZLE_OPEN 1
#define MISGWALOR_NOZZLE_BORDER 2

/*
 * Latitude B and longitude L to the plane of a system.
 * answer: X, Y, scale, convergence, each within 0.51 of its unit of the published procedure as document 01 writes it out, with m0 in the scale. So another
 * terminal that keeps to 0.51 too answers the same, or one unit beside where the procedure's value lies within 0.01 of a half.
 * East and west are alike: for one B, two L equally far from the central meridian get the same return; on 0 X and scale are equal, the two Y lie equally far
 * from y0 on either side, and the convergences are negatives, to the last unit. On the meridian itself Y is y0 and the convergence 0.
 * Refusals, in this order: 1, 2, 3. On a refusal answer holds what it held.
 */
uint8_t misgwalor_forward(uint8_t code, int64_t b, int64_t l, int64_t answer[4]);

/*
 * A plane point of a system to latitude and longitude.
 * answer: B, L, each within 0.6 tick of the published procedure as document 01 writes it out.
 * East and west are alike: for one X, two Y equally far from y0 get the same return; on 0 the B are equal and the two L lie equally far from the central
 * meridian on either side. y0 itself gives the meridian's L.
 * Refusals, in this order: 1, 4, 2, 3; 2 and 3 are judged on the ticks that would be answered. On a refusal answer holds what it held.
 */
uint8_t misgwalor_inverse(uint8_t code, int64_t x, int64_t y, int64_t answer[2]);

/*
 * A plane point of one system to the plane of another on the same ellipsoid.
 * answer: X, Y: exactly those that misgwalor_forward gives in `to` for the B, L that misgwalor_inverse gives in `from`, so each leg lies in its band: the B,
 * L between within 0.6 tick of the procedure, and X, Y within 0.51 mm of the procedure's for that B, L. With equal codes the point is checked
 * as misgwalor_inverse checks it, and answered as it was given.
 * Refusals, in this order: 1 (from, then to), 5, 4, 2, 3 (from, then to). On a refusal answer holds what it held.
 */
uint8_t misgwalor_plane_to_plane(uint8_t from, uint8_t to, int64_t x, int64_t y, int64_t answer[2]);

/*
 * A whole ring from one system to another: each corner as misgwalor_plane_to_plane takes it, in the same band.
 * out: on 0 the first `numbers` of its numbers are the converted corners in order, and the numbers past them are as they were. On a refusal all of out
 * is as it was, also where a late corner is refused.
 * Refusals, in this order: 1 (from, then to), 5, 6, 7, 8, 14 (out_numbers is less than numbers), then those of the corners in order; the first wins.
 * The ring may be crossed. out may not overlap corners.
 */
uint8_t misgwalor_convert_ring(uint8_t from, uint8_t to, const int64_t *corners, size_t numbers, int64_t *out, size_t out_numbers);

/*
 * The doubled area of a ring in square millimetres, exact; positive where the ring runs clockwise on the map. A crossed ring has one too: its lobes
 * count by their own sign.
 * Refusals, in this order: 6, 7, 8. On a refusal answer holds what it held.
 */
uint8_t misgwalor_area2(const int64_t *corners, size_t numbers, int64_t answer[1]);

/*
 * How often a ring turns around the point (px, py), clockwise counted positive, exact; the point may be any pair of int64_t. A crossed ring has one too.
 * Refusals, in this order: 6, 7, 8. On a refusal answer holds what it held.
 */
uint8_t misgwalor_turning_number(const int64_t *corners, size_t numbers, int64_t px, int64_t py, int64_t answer[1]);

/*
 * Whether a ring is crossed. Returns 0 where it is clean.
 * edges: on 9 the two edges of the first crossed pair, the lower number first; pairs are ordered by the lower and then by the higher number. On 0 and
 * on the other refusals edges holds what it held.
 * pairs: how many pairs of edges were looked at, in that order. On 0 it is all of them, n(n-1)/2 of n corners; on 9 the place of the first crossed pair,
 * counted from 1. On the other refusals pairs holds what it held. docs/PERFORMANCE.md has the time that the test takes.
 * Refusals, in this order: 6, 7, 8, 9.
 */
uint8_t misgwalor_crossing(const int64_t *corners, size_t numbers, int64_t edges[2], int64_t pairs[1]);

/*
 * The nozzle's answer for a ring and the point (px, py), any pair of int64_t: MISGWALOR_NOZZLE_BORDER on an edge, else MISGWALOR_NOZZLE_OPEN where the
 * turning number is not 0, else MISGWALOR_NOZZLE_SHUT. Clockwise and anticlockwise rings answer alike.
 * answer: on 0 the answer; on a refusal what it held. edges, pairs: on 9 as misgwalor_crossing writes them; else what they held. They may not overlap.
 * Refusals, in this order: 6, 7, 8, 9.
 */
uint8_t misgwalor_nozzle(const int64_t *corners, size_t numbers, int64_t px, int64_t py, int64_t answer[1], int64_t edges[2], int64_t pairs[1]);

/*
 * Whether a field is accepted. Returns 0 where it is.
 * where: on 9 the crossed ring's number, the two edges of its first crossed pair as misgwalor_crossing tells them, and the pairs of its edges looked at. On 0
 * and on the other refusals where holds what it held.
 * An inner ring is badly placed, 15, where an edge of it shares a point with an edge of the outer ring or of an inner ring before it, where it is not strictly
 * inside the outer ring, or where it lies inside an inner ring before it or one before it lies inside it. Rings that touch in one point share it.
 * Refusals, in this order: 6 where there is no ring, or where the counts do not add up to just half of `numbers`; then ring by ring, the outer one first: 16 at
 * the seventeenth inner ring, 6, 7, 8, 9, and 15 of an inner ring. The area of a ring is asked by misgwalor_area2 with that ring's own numbers.
 */
uint8_t misgwalor_field_accept(const uint32_t *counts, size_t rings, const int64_t *corners, size_t numbers, int64_t where[4]);

/*
 * The nozzle's answer for a field and the point (px, py), any pair of int64_t: MISGWALOR_NOZZLE_BORDER on an edge of any ring, else MISGWALOR_NOZZLE_SHUT
 * where the turning number of the outer ring is 0 or that of an inner one is not, else MISGWALOR_NOZZLE_OPEN. Which way a ring is walked does not matter.
 * answer: on 0 the answer; on a refusal what it held. where: on 9 as misgwalor_field_accept writes it; else what it held. They may not overlap.
 * Refusals, in this order: those of misgwalor_field_accept.
 */
uint8_t misgwalor_field_nozzle(const uint32_t *counts, size_t rings, const int64_t *corners, size_t numbers, int64_t px, int64_t py, int64_t answer[1],
                               int64_t where[4]);

/*
 * The same answer for a field that was accepted before, many times as fast: whether rings are crossed or badly placed is not judged again. Of a field that
 * misgwalor_field_accept would refuse with 9 or 15 the answer is that of the rule above all the same.
 * answer: on 0 the answer; on a refusal what it held.
 * Refusals, in this order: 6 where there is no ring, or where the counts do not add up to just half of `numbers`; then ring by ring: 16 at the seventeenth inner
 * ring, 6, 7, 8.
 */
uint8_t misgwalor_field_position(const uint32_t *counts, size_t rings, const int64_t *corners, size_t numbers, int64_t px, int64_t py, int64_t answer[1]);

#ifdef __cplusplus
}
#endif

#endif
