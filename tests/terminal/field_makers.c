/* Random fields: an outer ring that leaves a square free, and ponds in the cells of that square, as they are or spoilt by field_damage. Assumes nothing. */
#include <string.h>

#include "makers.h"
#include "random.h"

/* ---- rings one after the other */

void begin_field(struct made_field *made) { made->rings = made->numbers = 0; }

void append_ring(struct made_field *made, const int64_t *numbers, size_t corners) {
    if (made->rings == MOST_RINGS || made->numbers + 2 * corners > LEND_MOST) return;
    memcpy(made->corners + made->numbers, numbers, 2 * corners * sizeof(int64_t));
    made->counts[made->rings++] = (uint32_t)corners;
    made->numbers += 2 * corners;
}

int64_t *made_ring(struct made_field *made, size_t ring) {
    size_t before = 0;
    for (size_t k = 0; k < ring; k++) before += made->counts[k];
    return made->corners + 2 * before;
}

/* The same ring with another corner first, and perhaps walked backwards. */
static void begin_elsewhere(int64_t *numbers, size_t corners) {
    int64_t old[2 * MOST_CORNERS];
    size_t first = random_below(corners), step = one_in(2) ? 1 : corners - 1;
    memcpy(old, numbers, 2 * corners * sizeof(int64_t));
    for (size_t i = 0; i < corners; i++) memcpy(numbers + 2 * i, old + 2 * ((first + step * i) % corners), 2 * sizeof(int64_t));
}

/* A square from one number to another on both axes, begun at any corner. */
static void square(int64_t *numbers, int64_t low, int64_t high) {
    square_ring(numbers, low, low, high - low);
    begin_elsewhere(numbers, 4);
}

/* ---- the outer ring */

/* A square of the half width given, its sides cut at equal steps and each cut pushed outwards by chance: a clean ring of 4 corners or more. */
static void jagged(int64_t *numbers, size_t corners, int64_t half) {
    int64_t most = half <= 2 * SPAN / 5 ? half / 4 : 0;
    for (size_t side = 0, i = 0; side < 4; side++) {
        size_t cuts = (corners + 3 - side) / 4;
        for (size_t j = 0; j < cuts; j++, i++) {
            int64_t along = 2 * half * (int64_t)j / (int64_t)cuts - half, out = half + (j == 0 ? 0 : random_between(0, most));
            numbers[2 * i + side % 2] = side < 2 ? along : -along;
            numbers[2 * i + 1 - side % 2] = side == 1 || side == 2 ? out : -out;
        }
    }
}

/* Says the half width of the square round 0, 0 that the ring leaves free. */
static int64_t outer_ring(int64_t *numbers, size_t corners, int64_t size) {
    if (corners > 3 && !one_in(4)) {
        jagged(numbers, corners, size);
        begin_elsewhere(numbers, corners);
        return size;
    }
    /* its nearest corners are a quarter of its size away, an edge between two of three half of that, and a square lies in the circle that is left */
    star_ring(numbers, corners, size);
    return size / 12;
}

/* ---- ponds */

/* A pond in a cell of a half width, 0, 0 being its middle: a star, or a square that is small, nearly fills the cell, fills it or stands out from it. */
static void pond(int64_t *numbers, size_t corners, int64_t half) {
    if (corners != 4 || one_in(3)) {
        star_ring(numbers, corners, half - 1);
        return;
    }
    int64_t reach = one_in(2) ? half - 1 : one_in(12) ? half + random_between(0, 1) : random_between(1, half);
    square(numbers, -reach, reach);
}

struct plan {
    int64_t size;          /* of the outer ring: its half width or, of a star, its reach */
    size_t outer, inner;   /* corners of the outer ring, and how many inner ones there are */
    size_t pond;           /* corners of each inner ring, or 0 for any count */
};

static size_t pond_corners(const struct plan *plan) {
    if (plan->pond) return plan->pond;
    return one_in(30) ? 3 + random_below(126) : one_in(2) ? 4 : 3 + random_below(one_in(4) ? 30 : 5);
}

/* The ponds in cells, from any of them on, each next to the one before or not; one in `rarity` is made wrong, the outer ring more seldom, none for 0. */
static void make_field(struct made_field *made, const struct plan *plan, uint64_t rarity) {
    int64_t ring[2 * MOST_CORNERS], across = 1;
    while ((size_t)(across * across) < plan->inner) across++;
    begin_field(made);
    int64_t half = outer_ring(ring, plan->outer, plan->size), cell = half / across < 3 ? 3 : half / across;
    size_t cells = (size_t)(across * across), first = random_below(cells), step = one_in(2) ? 1 : 7, corners = plan->outer;
    append_ring(made, ring, rarity && one_in(3 * rarity) ? spoil_ring(made, ring, corners) : corners);
    for (size_t k = 0; k < plan->inner; k++) {
        int64_t at = (int64_t)((first + step * k) % cells);
        corners = pond_corners(plan);
        pond(ring, corners, cell);
        move_ring(ring, 2 * corners, cell * (2 * (at / across) + 1) - half, cell * (2 * (at % across) + 1) - half);
        append_ring(made, ring, rarity && one_in(rarity) ? spoil_ring(made, ring, corners) : corners);
    }
}

/* How far the numbers of an axis are to be moved: anywhere, or until the outer ring's largest or smallest number is the limit of 7 or one beside it. */
static int64_t shift_of(const struct made_field *made, size_t axis) {
    int64_t least = made->corners[axis], most = least;
    for (size_t i = axis; i < 2 * (size_t)made->counts[0]; i += 2) {
        if (made->corners[i] < least) least = made->corners[i];
        if (made->corners[i] > most) most = made->corners[i];
    }
    int64_t beside = one_in(4) ? 1 : random_between(-1, 0);
    return one_in(4) ? LARGEST - most + beside : one_in(3) ? -LARGEST - least - beside : random_between(-LARGEST - least, LARGEST - most);
}

void random_field(struct made_field *made) {
    struct plan plan = {.pond = 0};
    plan.size = one_in(8) ? SPAN / 2 + random_between(-1, 1) : one_in(4) ? random_between(12, 60) : random_between(100, one_in(2) ? 2000 : 8000000);
    plan.outer = one_in(200) ? 3 + random_below(1022) : one_in(20) ? 3 + random_below(126) : one_in(2) ? 4 : 3 + random_below(10);
    plan.inner = one_in(20) ? 15 + random_below(4) : one_in(5) ? random_below(17) : 1 + random_below(3);
    if (one_in(20)) plan.outer = 17 + random_below(112), plan.inner = 1 + random_below(3), plan.pond = 17 + random_below(112);
    make_field(made, &plan, one_in(2) ? 0 : one_in(2) ? plan.inner + 1 : 1 + random_below(5));
    int64_t x = shift_of(made, 0), y = shift_of(made, 1);
    if (one_in(3)) move_ring(made->corners, made->numbers, x, y);
    if (one_in(10)) spoil_counts(made);
}

void large_field(struct made_field *made) {
    struct plan plan = {random_between(1000000, 8000000), 1024, 16, 128};
    make_field(made, &plan, one_in(3) ? 0 : 6);
}

/* ---- small corners */

/* The box itself, perhaps with a corner moved, or a ring of corners in it. */
static void append_small(struct made_field *made, int64_t low, int64_t high) {
    int64_t ring[12];
    size_t corners = one_in(3) ? 4 + random_below(2) : 3;
    for (size_t i = 0; i < 2 * corners; i++) ring[i] = random_between(low, high);
    if (one_in(2)) {
        size_t moved = random_below(8);
        int64_t to = ring[0];
        corners = 4;
        square(ring, low, high);
        if (one_in(3)) ring[moved] = to;
    }
    append_ring(made, ring, corners);
}

void small_field(struct made_field *made, int64_t size) {
    begin_field(made);
    append_small(made, 0, size);
    for (size_t inner = 1 + random_below(3); inner > 0; inner--) {
        int64_t low = one_in(4) ? 0 : random_between(1, size - 2), high = one_in(4) ? size - 1 : random_between(low + 1, size - 1);
        append_small(made, low, high);
    }
}
