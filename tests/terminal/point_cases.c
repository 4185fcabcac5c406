/* Forward, inverse and plane to plane on random points, held to point_judge: answers to the band, refusals exactly. Assumes nothing. */
#include <math.h>
#include <stdio.h>

#include "../../include/misgwalor.h"
#include "cases.h"
#include "lend.h"
#include "point_judge.h"
#include "random.h"
#include "report.h"

/* An answer lies within this of the procedure's value (docs/EXCEPTIONS.md): plane, scale and convergence; ticks. */
static const long double BAND[2] = {0.51L, 0.6L};

/* After an inverse, 2 and 3 are judged on the ticks that would be answered; this near to a limit both answers are allowed. */
static const long double OPEN_TICKS = 1;

static const int64_t DEGREE = 3600000000;

enum { ANSWER = 1 };

long double farthest[2]; /* the largest distances seen: plane, scale and convergence; ticks */

static int in_band(int64_t answered, int64_t offset, long double value, int kind) {
    long double distance = fabsl((long double)(answered - offset) - value);
    if (distance > farthest[kind]) farthest[kind] = distance;
    return distance <= BAND[kind];
}

/* ---- forward */

static int forward_right(int code, int64_t b, int64_t l, const int64_t *answer) {
    const struct system_row *system = system_of(code);
    long double values[4];
    judge_forward(code, b, l, values);
    int64_t offsets[4] = {(int64_t)system->x0 * 1000, (int64_t)system->y0 * 1000, 0, 0};
    for (int i = 0; i < 4; i++)
        if (!in_band(answer[i], offsets[i], values[i], 0)) return 0;
    return 1;
}

static void try_forward(uint8_t code, int64_t b, int64_t l) {
    int64_t *answer = lend(ANSWER, 4), numbers[3] = {code, b, l};
    uint8_t returned = misgwalor_forward(code, b, l, answer);
    int owed = refusal_of_ticks(code, b, l);
    int right = returned == owed && (owed ? lend_kept(ANSWER, 0) : forward_right(code, b, l, answer) && lend_kept(ANSWER, 4));
    judge(right, FORWARD, returned, "code, B, L", numbers, 3);
}

/* ---- inverse */

/* Whether the return is right for the ticks of the procedure, and where it is 0 the answer too. */
static int inverse_right(int code, int64_t x, int64_t y, uint8_t returned, const int64_t *answer) {
    const struct system_row *system = system_of(code);
    long double values[2], half = (long double)half_width_ticks(system);
    judge_inverse(code, x, y, values);
    long double over_latitude = fmaxl(48 * DEGREE - values[0], values[0] - 56 * DEGREE), over_longitude = fabsl(values[1]) - half;
    if (returned == 2) return over_latitude > -OPEN_TICKS;
    if (over_latitude > OPEN_TICKS) return 0;
    if (returned == 3) return over_longitude > -OPEN_TICKS;
    if (over_longitude > OPEN_TICKS) return 0;
    return returned == 0 && in_band(answer[0], 0, values[0], 1) && in_band(answer[1], meridian_ticks(system), values[1], 1)
        && refusal_of_ticks(code, answer[0], answer[1]) == 0;
}

static void try_inverse(uint8_t code, int64_t x, int64_t y) {
    int64_t *answer = lend(ANSWER, 2), numbers[3] = {code, x, y};
    uint8_t returned = misgwalor_inverse(code, x, y, answer);
    int owed = refusal_of_plane(code, x, y);
    int right = owed ? returned == owed : inverse_right(code, x, y, returned, answer);
    judge(right && lend_kept(ANSWER, returned ? 0 : 2), INVERSE, returned, "code, X, Y", numbers, 3);
}

/* ---- plane to plane: by the library's own forward and inverse, which are judged above */

static void try_plane(uint8_t from, uint8_t to, int64_t x, int64_t y) {
    int64_t ticks[2], plane[4] = {x, y}, numbers[4] = {from, to, x, y}, *answer = lend(ANSWER, 2);
    uint8_t returned = misgwalor_plane_to_plane(from, to, x, y, answer);
    const struct system_row *source = system_of(from), *target = system_of(to);
    int owed = !source || !target ? 1 : source->krasovsky != target->krasovsky ? 5 : misgwalor_inverse(from, x, y, ticks);
    if (!owed && from != to) owed = misgwalor_forward(to, ticks[0], ticks[1], plane);
    int right = returned == owed && (owed ? lend_kept(ANSWER, 0) : answer[0] == plane[0] && answer[1] == plane[1] && lend_kept(ANSWER, 2));
    judge(right, PLANE_TO_PLANE, returned, "codes, X, Y", numbers, 4);
}

/* ---- points */

static uint8_t random_code(void) { return one_in(50) ? (uint8_t)random_bits() : (uint8_t)random_between(1, 14); }

/* A latitude or longitude: inside, at a limit or a tick beside it, or anywhere. */
static int64_t random_angle(int64_t low, int64_t high) {
    switch (random_below(8)) {
    case 0: return (one_in(2) ? low : high) + random_between(-2, 2);
    case 1: return one_in(4) ? random_wild() : random_between(low - DEGREE, high + DEGREE);
    case 2: return (low + high) / 2 + random_between(-3, 3);
    default: return random_between(low, high);
    }
}

static void random_ticks(const struct system_row *system, int64_t *b, int64_t *l) {
    int64_t middle = meridian_ticks(system), half = half_width_ticks(system);
    *b = random_angle(48 * DEGREE, 56 * DEGREE);
    *l = random_angle(middle - half, middle + half);
}

/* A plane point of a system: of a random latitude and longitude, in the box of refusal 4, at its limits, or anywhere. */
static void random_plane(int code, const struct system_row *system, int64_t *x, int64_t *y) {
    int64_t x0 = (int64_t)system->x0 * 1000, y0 = (int64_t)system->y0 * 1000;
    int64_t low = (int64_t)ceill(system->m0 * 5300000000.0L), high = (int64_t)floorl(system->m0 * 6250000000.0L), far = (int64_t)floorl(system->m0 * 420000000.0L);
    if (one_in(2)) {
        int64_t b, l;
        long double values[4];
        do random_ticks(system, &b, &l);
        while (refusal_of_ticks(code, b, l) != 0);
        judge_forward(code, b, l, values);
        *x = x0 + (int64_t)llroundl(values[0]) + random_between(-2, 2);
        *y = y0 + (int64_t)llroundl(values[1]) + random_between(-2, 2);
        return;
    }
    *x = one_in(10) ? random_wild() : x0 + (one_in(4) ? (one_in(2) ? low : high) + random_between(-2, 2) : random_between(low, high));
    *y = one_in(10) ? random_wild() : y0 + (one_in(4) ? (one_in(2) ? -far : far) + random_between(-2, 2) : random_between(-far, far));
}

void point_cases(uint64_t rounds) {
    for (uint64_t i = 0; i < rounds; i++) {
        uint8_t code = random_code(), to = one_in(4) ? random_code() : (uint8_t)(code < 8 ? random_between(1, 7) : random_between(8, 14));
        const struct system_row *system = system_of(code) ? system_of(code) : system_of(1);
        int64_t b, l, x, y;
        random_ticks(system, &b, &l);
        try_forward(code, b, l);
        mirror_forward(code, b, l);
        random_plane(system_of(code) ? code : 1, system, &x, &y);
        try_inverse(code, x, y);
        mirror_inverse(code, x, y);
        try_plane(code, to, x, y);
    }
}

/* ---- the central meridian: d = 0 gives Y = y0 exactly and no convergence, the scale is m0 itself, and the way back, which is its own mirror, gives d = 0 */

static void try_meridian(uint8_t code, int64_t b) {
    const struct system_row *system = system_of(code);
    int64_t *answer = lend(ANSWER, 4), numbers[2] = {code, b}, m0 = (int64_t)llroundl(system->m0 * 1000000000);
    uint8_t returned = misgwalor_forward(code, b, meridian_ticks(system), answer);
    int right = returned == 0 && answer[1] == (int64_t)system->y0 * 1000 && answer[2] == m0 && answer[3] == 0;
    judge(right && lend_kept(ANSWER, 4), FORWARD, returned, "central meridian, B", numbers, 2);
    mirror_inverse(code, answer[0], answer[1]);
}

/* ---- the numbers to run of document 01 */

static void expect_forward(int returned, uint8_t code, int64_t b, int64_t l) {
    int64_t numbers[3] = {code, b, l};
    judge(refusal_of_ticks(code, b, l) == returned, JUDGE, 0, "document 01", numbers, 3);
    try_forward(code, b, l);
}

void known_points(void) {
    expect_forward(0, 1, 48 * DEGREE, 19 * DEGREE);
    expect_forward(2, 1, 48 * DEGREE - 1, 19 * DEGREE);
    expect_forward(0, 2, 52 * DEGREE, 16 * DEGREE + DEGREE / 2);
    expect_forward(3, 2, 52 * DEGREE, 16 * DEGREE + DEGREE / 2 + 1);
    expect_forward(1, 0, 52 * DEGREE, 19 * DEGREE);
    expect_forward(1, 15, 52 * DEGREE, 19 * DEGREE);
    for (uint8_t code = 1; code <= 14; code++) {
        try_meridian(code, random_between(48 * DEGREE, 56 * DEGREE));
        for (int64_t b = 48 * DEGREE; b <= 56 * DEGREE; b += DEGREE / 60) try_meridian(code, b);
    }
}
