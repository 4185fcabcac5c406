/* Fields made in turn: each two refusals at each two rings, each two ponds that touch or lie in one another, and each edge touched. Assumes nothing. */
#include <string.h>

#include "cases.h"
#include "field_calls.h"

static struct made_field made;

/* ---- a field with all its rings, or more: a square of 2,000 mm, and ponds of 100 mm in rows of four */

enum { ALL_RINGS = 17, KIND_COUNT = 5 };
static const int KINDS[KIND_COUNT] = {6, 7, 8, 9, 15};

/* The corners of a ring of it, the outer one at 0. */
static void ring_at(size_t ring, int64_t *numbers) {
    int64_t inner = (int64_t)ring - 1;
    if (ring == 0) square_ring(numbers, 0, 0, 2000);
    else square_ring(numbers, 100 + 400 * (inner % 4), 90 + 210 * (inner / 4), 100);
}

/* The next ring, made wrong by two kinds of refusal; 0 for neither leaves it as it should be. The outer ring has no 15: it is only moved. */
static void append_kinds(int kind, int other) {
    int64_t numbers[8];
    int wrong[16] = {0};
    wrong[kind] = wrong[other] = 1;
    ring_at(made.rings, numbers);
    if (wrong[9]) numbers[3] = numbers[7], numbers[5] = numbers[1];
    if (wrong[8]) numbers[4] -= SPAN + 2001;
    if (wrong[7]) numbers[7] = LARGEST + 1;
    if (wrong[15]) move_ring(numbers, 8, 0, 1950 - numbers[1]);
    append_ring(&made, numbers, wrong[6] ? 2 : 4);
}

/* ---- each refusal at each ring */

/* So many rings, two of them made wrong, or one of them twice: the first of them is answered, and of one ring's refusals the lower number; by position the
   first that is no 9 and no 15. */
static void expect_two(size_t rings, size_t first, int kind, size_t second, int other) {
    begin_field(&made);
    for (size_t ring = 0; ring < rings; ring++) append_kinds(ring == first ? kind : 0, ring == second ? other : 0);
    int owed = first == second && other < kind ? other : kind;
    int later = second < ALL_RINGS && other < 9 ? other : rings > ALL_RINGS ? 16 : 0;
    expect_field(&made, owed, owed < 9 ? owed : later);
}

static void each_two_refusals(size_t rings) {
    for (size_t first = 0; first < ALL_RINGS; first++)
        for (int kind = 0; kind < KIND_COUNT - (first == 0); kind++)
            for (size_t second = first; second < rings; second++)
                for (int other = 0; other < KIND_COUNT; other++) expect_two(rings, first, KINDS[kind], second, KINDS[other]);
}

/* So many rings as they should be, and one behind them of any kind: the seventeenth inner one is 16 whatever it is. */
static void each_last_ring(void) {
    for (size_t before = 0; before < MOST_RINGS; before++)
        for (int kind = -1; kind < KIND_COUNT; kind++) {
            int last = kind < 0 ? 0 : KINDS[kind], owed = before >= ALL_RINGS ? 16 : before == 0 && last == 15 ? 0 : last;
            begin_field(&made);
            for (size_t ring = 0; ring < before; ring++) append_kinds(0, 0);
            append_kinds(last, 0);
            expect_field(&made, owed, owed == 9 || owed == 15 ? 0 : owed);
        }
}

/* ---- each two ponds */

/* A pond that lies badly beside another: equal to it, in it or round it by 20 mm, or a triangle of its own with a corner at the other's corner or on its edge.
   The places of the ponds are such that no triangle is flat. Says how many corners it has. */
static size_t lay_badly(int64_t *numbers, const int64_t *other, int way) {
    const int64_t inwards[8] = {20, 20, -20, 20, -20, -20, 20, -20};
    const int64_t triangle[6] = {other[0] + (way == 3 ? 0 : 50), other[1], numbers[0] + 30, numbers[1] + 30, numbers[0] + 70, numbers[1] + 60};
    for (size_t i = 0; i < 8; i++) numbers[i] = other[i] + (way == 0 ? 0 : way == 1 ? inwards[i] : -inwards[i]);
    if (way < 3) return 4;
    memcpy(numbers, triangle, sizeof triangle);
    return 3;
}

static void expect_beside(size_t ring, size_t other, int way) {
    int64_t at[8], numbers[8];
    begin_field(&made);
    ring_at(other, at);
    for (size_t k = 0; k < ALL_RINGS; k++) {
        ring_at(k, numbers);
        append_ring(&made, numbers, k == ring ? lay_badly(numbers, at, way) : 4);
    }
    expect_field(&made, 15, 0);
}

static void each_two_ponds(void) {
    for (size_t ring = 1; ring < ALL_RINGS; ring++)
        for (size_t other = 1; other < ALL_RINGS; other++)
            for (int way = 0; ring != other && way < 5; way++) expect_beside(ring, other, way);
}

/* ---- each edge of a ring of many corners, touched by a corner of another one */

static const int64_t REACH = 4000000;

/* A small ring of corners on a circle, moved by hundredths of a goal and with the corner that is nearest to it drawn to other hundredths of it. */
static void append_tipped(size_t corners, size_t from, const int64_t *goal, int64_t middle, int64_t tip) {
    int64_t numbers[2 * MOST_CORNERS], drawn[2] = {goal[0] / 100 * tip, goal[1] / 100 * tip};
    circle_ring(numbers, corners, REACH / 10, from);
    move_ring(numbers, 2 * corners, goal[0] / 100 * middle, goal[1] / 100 * middle);
    memcpy(numbers + 2 * nearest_corner(numbers, corners, drawn), tip == 100 ? goal : drawn, sizeof drawn);
    append_ring(&made, numbers, corners);
}

/* A ring round 0, 0 whose corners have even numbers, so that the middle of an edge has whole ones. */
static void append_round(size_t corners, size_t edge, int64_t *goal) {
    int64_t numbers[2 * MOST_CORNERS];
    circle_ring(numbers, corners, REACH, 0);
    for (size_t i = 0; i < 2 * corners; i++) numbers[i] *= 2;
    size_t next = (edge + 1) % corners;
    for (size_t axis = 0; axis < 2; axis++) goal[axis] = (numbers[2 * edge + axis] + numbers[2 * next + axis]) / 2;
    append_ring(&made, numbers, corners);
}

/* The tip of a ring short of the edge, on it or past it, in hundredths of the way from 0, 0: from inside the outer ring; and from outside a pond, in both
   orders. */
static void expect_touched(size_t corners, size_t edge, size_t tipped, int64_t tip) {
    int64_t goal[2], yard[8];
    square_ring(yard, -SPAN / 2, -SPAN / 2, SPAN);
    begin_field(&made);
    append_round(corners, edge, goal);
    append_tipped(tipped, edge * 7, goal, 0, tip);
    expect_field(&made, tip < 100 ? 0 : 15, 0);
    if (corners > 128) return;
    begin_field(&made);
    append_ring(&made, yard, 4);
    append_round(corners, edge, goal);
    append_tipped(tipped, edge * 7, goal, 115, tip);
    expect_field(&made, tip > 100 ? 0 : 15, 0);
    begin_field(&made);
    append_ring(&made, yard, 4);
    append_tipped(tipped, edge * 7, goal, 115, tip);
    append_round(corners, edge, goal);
    expect_field(&made, tip > 100 ? 0 : 15, 0);
}

static void each_edge(void) {
    const size_t corners[] = {16, 17, 33, 47, 128, 200}, tipped[] = {3, 50, 16, 35, 17, 40};
    for (size_t i = 0; i < sizeof corners / sizeof corners[0]; i++)
        for (size_t edge = 0; edge < corners[i]; edge++)
            for (int64_t tip = 99; tip <= 101; tip++) expect_touched(corners[i], edge, tipped[i], tip);
}

void swept_fields(void) {
    each_two_refusals(ALL_RINGS);
    each_two_refusals(ALL_RINGS + 1);
    each_last_ring();
    each_two_ponds();
    each_edge();
}
