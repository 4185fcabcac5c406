/* What makes a field wrong: a ring's count, numbers or span, a crossing, a bad place, or counts that do not add up. Assumes nothing. */
#include <string.h>

#include "makers.h"
#include "random.h"

/* ---- one ring by itself: each says how many corners it has then */

static size_t wrong_count(int64_t *ring, size_t corners, int inner) {
    const size_t few[] = {0, 1, 2, 3}, many[] = {127, 128, 129, 130}, most[] = {1023, 1024, 1025, 1026};
    size_t wanted = (one_in(2) ? few : inner && !one_in(10) ? many : most)[random_below(4)];
    for (size_t i = 2 * corners; i < 2 * wanted; i++) ring[i] = random_between(0, 1000);
    return wanted;
}

static size_t wrong_number(int64_t *ring, size_t corners) {
    size_t at = random_below(2 * corners);
    ring[at] = one_in(2) ? random_wild() : (one_in(2) ? 1 : -1) * (LARGEST + random_between(0, 1));
    return corners;
}

/* A span of 20,000,000 or one beside it, mostly. */
static size_t wrong_span(int64_t *ring, size_t corners) {
    size_t axis = random_below(2), from = random_below(corners), to = (from + 1 + random_below(corners - 1)) % corners;
    ring[2 * to + axis] = ring[2 * from + axis] + (one_in(2) ? 1 : -1) * (SPAN + random_between(-1, 1));
    return corners;
}

static void copy_corner(int64_t *to, const int64_t *from) { memcpy(to, from, 2 * sizeof(int64_t)); }

/* Two corners exchanged, or one put where another is, or into the middle of an edge: a crossing, a fold, or an edge of no length. */
static size_t wrong_order(int64_t *ring, size_t corners) {
    size_t from = random_below(corners), to = (from + 1 + random_below(one_in(2) ? 2 : corners - 1)) % corners, next = (from + 1) % corners;
    int64_t kept[2];
    copy_corner(kept, ring + 2 * to);
    copy_corner(ring + 2 * to, ring + 2 * from);
    if (one_in(2)) copy_corner(ring + 2 * from, kept);
    if (one_in(4)) ring[2 * to] = (ring[2 * from] + ring[2 * next]) / 2, ring[2 * to + 1] = (ring[2 * from + 1] + ring[2 * next + 1]) / 2;
    return corners;
}

/* The ring drawn to a part of its size, in fourths, about the middle between its first corner and another one. */
static void scale_ring(int64_t *ring, size_t corners, int64_t fourths) {
    const int64_t *other = ring + 2 * (corners / 2), middle[2] = {(ring[0] + other[0]) / 2, (ring[1] + other[1]) / 2};
    for (size_t i = 0; i < 2 * corners; i++) ring[i] = middle[i % 2] + (ring[i] - middle[i % 2]) * fourths / 4;
}

/* ---- beside the rings before it */

/* A ring before it in its place, as it is or drawn smaller or larger: equal, nested or round it. */
static size_t on_another(int64_t *ring, size_t corners, const int64_t *other, size_t other_corners) {
    if (other_corners < 3 || other_corners > 1024 || (other_corners > 128 && !one_in(10))) return corners;
    memcpy(ring, other, 2 * other_corners * sizeof(int64_t));
    if (!one_in(3)) scale_ring(ring, other_corners, one_in(2) ? 2 : random_between(1, 9));
    return other_corners;
}

/* One corner drawn to the middle of an edge of the other ring or to its end, on it or a little short of it or past it. */
static void draw_to(int64_t *ring, size_t corners, const int64_t *other, size_t other_corners) {
    if (other_corners == 0) return;
    size_t edge = random_below(other_corners), next = one_in(3) ? edge : (edge + 1) % other_corners;
    const int64_t goal[2] = {(other[2 * edge] + other[2 * next]) / 2, (other[2 * edge + 1] + other[2 * next + 1]) / 2};
    int64_t *drawn = ring + 2 * (one_in(3) ? random_below(corners) : nearest_corner(ring, corners, goal)), past = random_between(-1, 1);
    int on_it = one_in(3), by_one = one_in(2);
    for (size_t axis = 0; axis < 2; axis++) drawn[axis] = goal[axis] + (on_it ? 0 : by_one ? random_between(-1, 1) : (goal[axis] - drawn[axis]) / 50 * past);
}

/* Another place: beside where it was, or so far off that the product of two distances does not fit 64 bits. */
static void put_elsewhere(int64_t *ring, size_t corners) {
    int64_t reach = one_in(3) ? LARGEST / 2 : one_in(2) ? 2 * SPAN : 1 + (int64_t)random_below(1000);
    int64_t x = random_between(-reach, reach), y = random_between(-reach, reach);
    move_ring(ring, 2 * corners, x, y);
}

static size_t wrong_place(struct made_field *before, int64_t *ring, size_t corners) {
    size_t other = one_in(2) ? 0 : random_below(before->rings), other_corners = before->counts[other];
    switch (random_below(4)) {
    case 0: return on_another(ring, corners, made_ring(before, other), other_corners);
    case 1: scale_ring(ring, corners, random_between(1, 20)); return corners;
    case 2: put_elsewhere(ring, corners); return corners;
    default: draw_to(ring, corners, made_ring(before, other), other_corners); return corners;
    }
}

size_t spoil_ring(struct made_field *before, int64_t *ring, size_t corners) {
    if (before->rings > 0 && !one_in(4)) return wrong_place(before, ring, corners);
    switch (random_below(5)) {
    case 0: return wrong_count(ring, corners, before->rings > 0);
    case 1: return wrong_number(ring, corners);
    case 2: return wrong_span(ring, corners);
    default: return wrong_order(ring, corners);
    }
}

/* ---- the counts */

/* Two counts that add up as before in 32 bits, and mostly not beyond them. */
static void shift_counts(struct made_field *made) {
    uint32_t *from = made->counts + random_below(made->rings), *to = made->counts + random_below(made->rings);
    uint32_t most = (uint32_t)random_bits() >> random_below(32);
    *from -= most, *to += most;
}

/* Counts behind the others that add up to 0 in 32 bits, or to nothing at all. */
static void more_counts(struct made_field *made) {
    const uint32_t pairs[4][2] = {{0x80000000u, 0x80000000u}, {0xffffffffu, 1}, {0, 0}, {0x7fffffffu, 0x80000001u}}, *pair = pairs[random_below(4)];
    for (size_t more = one_in(4) ? MOST_RINGS : 1; more > 0 && made->rings + 2 <= MOST_RINGS; more--) {
        made->counts[made->rings++] = pair[0];
        made->counts[made->rings++] = pair[1];
    }
}

static void other_numbers(struct made_field *made) {
    size_t less = random_below(4), more = random_below(4);
    if (made->numbers < less || made->numbers - less + more > LEND_MOST) return;
    for (size_t i = 0; i < more; i++) made->corners[made->numbers + i - less] = random_between(0, 1000);
    made->numbers = made->numbers - less + more;
}

void spoil_counts(struct made_field *made) {
    size_t ring = random_below(made->rings);
    switch (random_below(7)) {
    case 0: made->counts[ring] += (uint32_t)random_between(-2, 2); break;
    case 1: made->counts[ring] ^= 0x80000000u; break; /* twice this is the same in 32 bits */
    case 2: shift_counts(made); break;
    case 3: more_counts(made); break;
    case 4: other_numbers(made); break;
    case 5: made->rings = random_below(made->rings + 1); break;
    default: made->counts[ring] = (uint32_t)random_bits() >> random_below(32); break;
    }
}
