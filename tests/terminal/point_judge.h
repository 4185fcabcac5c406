/*
 * An independent judge of points: the published procedure with the tables of document 01, worked with true functions in long double (64 bits of fraction on
 * x86-64, 113 on Arm), and the checks exact in 128-bit whole numbers. Its values lie within 10^-6 unit of the procedure's, far inside the band that the answers
 * are held to. It shares nothing with the crates. Assumes <math.h> for long double, and __int128.
 */
#ifndef POINT_JUDGE_H
#define POINT_JUDGE_H

#include <stdint.h>

struct system_row {
    long double meridian_degrees, m0, x0, y0, half_width_degrees;
    int krasovsky;
};

/* The row of a code from 1 to 14, or 0. */
const struct system_row *system_of(int code);

/* The central meridian and the half-width in ticks. */
int64_t meridian_ticks(const struct system_row *system);
int64_t half_width_ticks(const struct system_row *system);

/* Refusal 1, 2 or 3 of a latitude and longitude, exact; and refusal 1 or 4 of a plane point, exact. 0 where they pass. */
int refusal_of_ticks(int code, int64_t b, int64_t l);
int refusal_of_plane(int code, int64_t x, int64_t y);

/* X, Y, scale and convergence in the units answered, unrounded. Whole offsets are apart from the rest: values[0] and values[1] come without x0 and y0. */
void judge_forward(int code, int64_t b, int64_t l, long double values[4]);

/* B in ticks, and L in ticks without the central meridian's, unrounded. */
void judge_inverse(int code, int64_t x, int64_t y, long double values[2]);

#endif
