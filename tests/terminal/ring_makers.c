/* Random rings of every kind: clean, crossed, folded, with edges of no length, at the limits of 6, 7 and 8, and damaged. Assumes nothing. */
#include <math.h>
#include <string.h>

#include "makers.h"
#include "random.h"

/* A count of corners: mostly few, sometimes many. */
static size_t random_count(size_t most) {
    size_t top = one_in(400) ? 1024 : one_in(40) ? 100 : one_in(3) ? 12 : 6;
    size_t count = 3 + random_below(top - 2);
    return 2 * count <= most ? count : 3;
}

/* Corners of a small grid: crossings, folds and repeated corners abound. */
static void grid(int64_t *numbers, size_t corners, int64_t size) {
    for (size_t i = 0; i < 2 * corners; i++) numbers[i] = random_between(0, size);
}

/* Corners in the order of their direction from the middle: a clean ring, nearly always. */
void star_ring(int64_t *numbers, size_t corners, int64_t size) {
    double turn = 6.283185307179586 / (double)corners, first = (double)random_below(1000);
    int back = one_in(2);
    for (size_t i = 0; i < corners; i++) {
        double direction = first + turn * (double)(back ? corners - i : i), far = (double)random_between(size / 4 + 1, size);
        numbers[2 * i] = (int64_t)(far * cos(direction));
        numbers[2 * i + 1] = (int64_t)(far * sin(direction));
    }
}

/* A comb whose teeth lie close to one another: many edges that nearly meet. */
static void comb(int64_t *numbers, size_t corners, int64_t size) {
    for (size_t i = 0; i < corners; i++) {
        numbers[2 * i] = i % 2 == 0 ? 0 : random_between(1, size);
        numbers[2 * i + 1] = (int64_t)(i / 2) * 3 + random_between(0, one_in(5) ? 4 : 1);
    }
}

void move_ring(int64_t *numbers, size_t count, int64_t x, int64_t y) {
    for (size_t i = 0; i + 1 < count; i += 2) numbers[i] += x, numbers[i + 1] += y;
}

/* Stretches one axis to a span of 20,000,000 or one more, at numbers up to the largest. */
static void to_the_limits(int64_t *numbers, size_t corners) {
    size_t axis = random_below(2), low = random_below(corners), high = random_below(corners);
    int64_t base = one_in(3) ? LARGEST - SPAN : one_in(2) ? -LARGEST : random_between(-LARGEST, LARGEST - SPAN);
    base += random_between(-1, 1);
    for (size_t i = 0; i < corners; i++) numbers[2 * i + axis] = base + random_between(0, SPAN);
    numbers[2 * low + axis] = base;
    numbers[2 * high + axis] = base + SPAN + random_between(-1, 1);
}

/* One number, or a corner, or the count, made wrong. */
static size_t damage(int64_t *numbers, size_t count, size_t most) {
    size_t at = random_below(count);
    switch (random_below(5)) {
    case 0: numbers[at] = random_wild(); return count;
    case 1: numbers[at] = numbers[random_below(count)]; return count;
    case 2: return random_below(count + 1);
    case 3: numbers[at] += random_between(-1, 1); return count;
    default: {
        size_t lengths[] = {0, 1, 2, 4, 5, 7, 2046, 2047, 2048, 2049, 2050, 2052};
        size_t wanted = lengths[random_below(sizeof lengths / sizeof lengths[0])];
        if (wanted > most || (wanted > 100 && !one_in(20))) return count;
        for (size_t i = count; i < wanted; i++) numbers[i] = random_between(0, 1000);
        return wanted;
    }
    }
}

size_t random_ring(int64_t *numbers, size_t most) {
    size_t corners = random_count(most), count = 2 * corners;
    switch (random_below(6)) {
    case 0: grid(numbers, corners, random_between(1, 6)); break;
    case 1: grid(numbers, corners, one_in(2) ? SPAN : 1000); break;
    case 2: comb(numbers, corners, 1000); break;
    case 3: to_the_limits(numbers, corners); break;
    default: star_ring(numbers, corners, one_in(3) ? SPAN / 2 : random_between(4, 100000)); break;
    }
    if (one_in(2)) move_ring(numbers, count, random_between(-LARGEST / 2, LARGEST / 2), random_between(-LARGEST / 2, LARGEST / 2));
    return one_in(4) ? damage(numbers, count, most) : count;
}

void circle_ring(int64_t *numbers, size_t corners, int64_t reach, size_t from) {
    for (size_t i = 0; i < corners; i++) {
        double direction = 6.283185307179586 * (double)((i + from) % corners) / (double)corners;
        numbers[2 * i] = (int64_t)((double)reach * cos(direction));
        numbers[2 * i + 1] = (int64_t)((double)reach * sin(direction));
    }
}

void square_ring(int64_t *numbers, int64_t x, int64_t y, int64_t width) {
    const int64_t corners[8] = {x, y, x + width, y, x + width, y + width, x, y + width};
    memcpy(numbers, corners, sizeof corners);
}

size_t nearest_corner(const int64_t *ring, size_t corners, const int64_t point[2]) {
    size_t found = 0;
    double least = INFINITY;
    for (size_t i = 0; i < corners; i++) {
        double distance = hypot((double)(ring[2 * i] - point[0]), (double)(ring[2 * i + 1] - point[1]));
        if (distance < least) least = distance, found = i;
    }
    return found;
}

/* Corners on a circle, one of them pulled across a side that is no neighbour, or left where it is: 16 to 300 corners, now and then all 1,024. */
size_t pulled_ring(int64_t *numbers) {
    size_t corners = one_in(50) ? 1024 : 16 + random_below(285);
    circle_ring(numbers, corners, 9000000, random_below(corners));
    size_t pulled = random_below(corners), side = (pulled + 2 + random_below(corners - 4)) % corners, next = (side + 1) % corners;
    if (one_in(4)) return 2 * corners;
    /* just past the middle of the side, seen from the circle's own middle */
    numbers[2 * pulled] = (numbers[2 * side] + numbers[2 * next]) / 2 / 1000 * 1100;
    numbers[2 * pulled + 1] = (numbers[2 * side + 1] + numbers[2 * next + 1]) / 2 / 1000 * 1100;
    return 2 * corners;
}
