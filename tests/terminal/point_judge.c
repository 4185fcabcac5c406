/* See point_judge.h. "01" is document 01, The systems and The projection as whole numbers; the steps are those of 001. */
#include "point_judge.h"

#include <complex.h>
#include <math.h>
#include <stddef.h>

typedef __int128 wide;
typedef long double real;
typedef long double complex pair;

static const real PI = 3.14159265358979323846264338327950288L;
static const real STEP = 0.000002L; /* z is a distance in metres times this */

/* ---- the tables of 01 */

static const struct system_row SYSTEMS[15] = {
    {0},
    {19, 0.9993L, -5300000, 500000, 5.5L, 0},
    {15, 0.999923L, 0, 5500000, 1.5L, 0},
    {18, 0.999923L, 0, 6500000, 1.5L, 0},
    {21, 0.999923L, 0, 7500000, 1.5L, 0},
    {24, 0.999923L, 0, 8500000, 1.5L, 0},
    {15, 0.9996L, 0, 500000, 3, 0},
    {21, 0.9996L, 0, 500000, 3, 0},
    {15, 1, 0, 3500000, 3, 1},
    {21, 1, 0, 4500000, 3, 1},
    {15, 1, 0, 5500000, 1.5L, 1},
    {18, 1, 0, 6500000, 1.5L, 1},
    {21, 1, 0, 7500000, 1.5L, 1},
    {24, 1, 0, 8500000, 1.5L, 1},
    {18 + 57.5L / 60, 0.999983L, -4700000, 237000, 2, 1},
};

static const struct ellipsoid {
    real e, a, R0, out[7], back[7], c2, c4, c6; /* out is a0 to a6, back is b0 to b6 */
} ELLIPSOIDS[2] = {
    {0.0818191910428L, 6378137, 6367449.145771L,
     {5765181.11148097L, 499800.81713800L, -63.81145283L, 0.83537915L, 0.13046891L, -0.00111138L, -0.00010504L},
     {5760000, 500199.26224125L, 63.88777449L, -0.82039170L, -0.13125817L, 0.00101782L, 0.00010778L},
     0.0033565514856L, 0.0000065718731L, 0.0000000176466L},
    {0.0818133340169L, 6378245, 6367558.496875L,
     {5765180.49758330L, 499800.87112376L, -63.80172299L, 0.83512434L, 0.13044472L, -0.00111100L, -0.00010501L},
     {5760000, 500199.20821246L, 63.87801231L, -0.82014111L, -0.13123362L, 0.00101747L, 0.00010775L},
     0.0033560696018L, 0.0000065699863L, 0.0000000176390L},
};

const struct system_row *system_of(int code) { return 1 <= code && code <= 14 ? &SYSTEMS[code] : NULL; }

static const struct ellipsoid *ellipsoid_of(const struct system_row *system) { return &ELLIPSOIDS[system->krasovsky]; }

/* ---- the checks */

static const int64_t DEGREE = 3600000000;

int64_t meridian_ticks(const struct system_row *system) { return (int64_t)llroundl(system->meridian_degrees * DEGREE); }
int64_t half_width_ticks(const struct system_row *system) { return (int64_t)llroundl(system->half_width_degrees * DEGREE); }

int refusal_of_ticks(int code, int64_t b, int64_t l) {
    const struct system_row *system = system_of(code);
    if (!system) return 1;
    if (b < 48 * DEGREE || b > 56 * DEGREE) return 2;
    wide d = (wide)l - meridian_ticks(system), half = half_width_ticks(system);
    return d > half || d < -half ? 3 : 0;
}

/* Gauss-Krüger millimetres are (X - x0)/m0; m0 has six digits, so both sides are multiplied by m0 and a million. */
int refusal_of_plane(int code, int64_t x, int64_t y) {
    const struct system_row *system = system_of(code);
    if (!system) return 1;
    wide million = 1000000, m0 = llroundl(system->m0 * 1000000);
    wide north = ((wide)x - (wide)llroundl(system->x0) * 1000) * million, east = ((wide)y - (wide)llroundl(system->y0) * 1000) * million;
    if (north < m0 * 5300000000 || north > m0 * 6250000000) return 4;
    return east > m0 * 420000000 || east < -m0 * 420000000 ? 4 : 0;
}

/* ---- the steps */

static real radians(real ticks) { return ticks * (PI / 648000000000.0L); }
static real ticks(real radians) { return radians * (648000000000.0L / PI); }

static pair polynomial(const real c[7], pair z) {
    pair sum = 0;
    for (int k = 6; k >= 0; k--) sum = sum * z + c[k];
    return sum;
}

static pair derivative(const real c[7], pair z) {
    pair sum = 0;
    for (int k = 6; k >= 1; k--) sum = sum * z + k * c[k];
    return sum;
}

/* 001, step 1: the sphere's latitude, by its sine and cosine. */
static void to_sphere(const struct ellipsoid *on, real B, real *sin_f, real *cos_f) {
    real t = sinl(B), K = expl(-on->e * atanhl(on->e * t)), whole = K * K * (1 + t) + (1 - t);
    *sin_f = (K * K * (1 + t) - (1 - t)) / whole;
    *cos_f = 2 * K * cosl(B) / whole;
}

void judge_forward(int code, int64_t b, int64_t l, real values[4]) {
    const struct system_row *system = system_of(code);
    const struct ellipsoid *on = ellipsoid_of(system);
    real B = radians((real)b), d = radians((real)(l - meridian_ticks(system))), sin_f, cos_f;
    to_sphere(on, B, &sin_f, &cos_f);
    real x = on->R0 * atanl(sin_f / (cos_f * cosl(d))), y = on->R0 * atanhl(cos_f * sinl(d));
    pair z = ((x - 5760000) + I * y) * STEP, plane = polynomial(on->out, z), slope = derivative(on->out, z);
    values[0] = system->m0 * creall(plane) * 1000;
    values[1] = system->m0 * cimagl(plane) * 1000;
    real N = on->a / sqrtl(1 - on->e * on->e * sinl(B) * sinl(B));
    real scale = on->R0 * cos_f / (N * cosl(B)) / sqrtl(1 - cos_f * cos_f * sinl(d) * sinl(d)) * cabsl(slope) * STEP;
    values[2] = system->m0 * scale * 1000000000;
    values[3] = ticks(atanl(sin_f * tanl(d)) - cargl(slope)) / 1000;
}

void judge_inverse(int code, int64_t x, int64_t y, real values[2]) {
    const struct system_row *system = system_of(code);
    const struct ellipsoid *on = ellipsoid_of(system);
    real north = ((real)x / 1000 - system->x0) / system->m0, east = ((real)y / 1000 - system->y0) / system->m0;
    pair mercator = polynomial(on->back, ((north - on->out[0]) + I * east) * STEP);
    real p = creall(mercator) / on->R0, q = cimagl(mercator) / on->R0;
    real f = asinl(sinl(p) / coshl(q)), d = atanl(sinhl(q) / cosl(p));
    values[0] = ticks(f + on->c2 * sinl(2 * f) + on->c4 * sinl(4 * f) + on->c6 * sinl(6 * f));
    values[1] = ticks(d);
}
