/* Points that are interesting to a ring, where an answer changes or is easily wrong. Assumes nothing. */
#include "makers.h"
#include "random.h"

/* A number near those of the ring's axis. */
static int64_t near_axis(const int64_t *ring, size_t count, size_t axis) {
    if (count < 2) return random_wild();
    int64_t a = ring[2 * random_below(count / 2) + axis], b = ring[2 * random_below(count / 2) + axis];
    switch (random_below(4)) {
    case 0: return a;
    case 1: return (int64_t)((uint64_t)a + (uint64_t)random_between(-2, 2));
    case 2: return a / 2 + b / 2;
    default: return a < b ? random_between(a, b) : random_between(b, a);
    }
}

void random_point(const int64_t *ring, size_t count, int64_t *px, int64_t *py) {
    if (count >= 4 && one_in(3)) {
        size_t k = 2 * random_below(count / 2), l = (k + 2) % (count - count % 2);
        int64_t part = random_between(0, 2);
        *px = ring[k] + (ring[l] / 2 - ring[k] / 2) * part + random_between(-1, 1);
        *py = ring[k + 1] + (ring[l + 1] / 2 - ring[k + 1] / 2) * part + random_between(-1, 1);
        return;
    }
    *px = one_in(20) ? random_wild() : near_axis(ring, count, 0);
    *py = one_in(20) ? random_wild() : near_axis(ring, count, 1);
}
