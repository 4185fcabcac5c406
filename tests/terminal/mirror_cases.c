/* East and west alike, 02 (xi): a point and its mirror about the central meridian, forward and back. The two answers are held to each other, to the last unit; how near each is to the
 * procedure is for point_cases. Assumes nothing. */
#include "../../include/misgwalor.h"
#include "cases.h"
#include "lend.h"
#include "point_judge.h"
#include "report.h"

/* A number of at most this size has a mirror that an int64_t holds. */
static const int64_t FARTHEST = INT64_MAX / 4;

enum { HERE = 1, THERE = 2 };

static int has_mirror(const struct system_row *system, int64_t number) { return system && -FARTHEST <= number && number <= FARTHEST; }

/* Both are refused with one number and have left what was lent, or both have answered. */
static int returned_alike(uint8_t here, uint8_t there, size_t count) {
    size_t written = here ? 0 : count;
    return here == there && lend_kept(HERE, written) && lend_kept(THERE, written);
}

void mirror_forward(uint8_t code, int64_t b, int64_t l) {
    const struct system_row *system = system_of(code);
    if (!has_mirror(system, l)) return;
    int64_t *here = lend(HERE, 4), *there = lend(THERE, 4), numbers[3] = {code, b, l}, twice = 2 * (int64_t)system->y0 * 1000;
    uint8_t returned = misgwalor_forward(code, b, l, here), other = misgwalor_forward(code, b, 2 * meridian_ticks(system) - l, there);
    int right = returned_alike(returned, other, 4)
        && (returned || (here[0] == there[0] && here[1] + there[1] == twice && here[2] == there[2] && here[3] == -there[3]));
    judge(right, FORWARD, returned, "east and west, code, B, L", numbers, 3);
}

void mirror_inverse(uint8_t code, int64_t x, int64_t y) {
    const struct system_row *system = system_of(code);
    if (!has_mirror(system, y)) return;
    int64_t *here = lend(HERE, 2), *there = lend(THERE, 2), numbers[3] = {code, x, y}, twice = 2 * (int64_t)system->y0 * 1000;
    uint8_t returned = misgwalor_inverse(code, x, y, here), other = misgwalor_inverse(code, x, twice - y, there);
    int right = returned_alike(returned, other, 2) && (returned || (here[0] == there[0] && here[1] + there[1] == 2 * meridian_ticks(system)));
    judge(right, INVERSE, returned, "east and west, code, X, Y", numbers, 3);
}
