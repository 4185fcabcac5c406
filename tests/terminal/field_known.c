/* Worked fields: a square with a pond, rings that touch or lie in one another, crossed rings, and what is at a limit. Assumes nothing. */
#include <string.h>

#include "cases.h"
#include "field_calls.h"

static const int64_t SQUARE[] = {0, 0, 1000, 0, 1000, 1000, 0, 1000};
static const int64_t POND[] = {200, 200, 200, 400, 400, 400, 400, 200};

static struct made_field made;

static void begin(const int64_t *outer, size_t corners) {
    begin_field(&made);
    append_ring(&made, outer, corners);
}

static void expect_crossed(int64_t ring, int64_t low, int64_t high, int64_t looked) {
    struct field_verdict verdict = lay_field(&made);
    const int64_t where[4] = {ring, low, high, looked};
    expect_judge(memcmp(verdict.where, where, sizeof where) == 0, "where a worked field is crossed");
    expect_field(&made, 9, 0);
}

static void expect_point(int64_t px, int64_t py, int64_t stands) {
    expect_judge(judge_standing(laid_field(), &BY_COMPUTING, px, py) == stands, "point of a worked field");
    try_field_point(px, py);
}

/* The square with one ring more. */
static void expect_pair(const int64_t *inner, size_t corners, int accept) {
    begin(SQUARE, 4);
    append_ring(&made, inner, corners);
    expect_field(&made, accept, 0);
}

/* ---- one pond */

static void pond_points(void) {
    expect_pair(POND, 4, 0);
    expect_point(300, 300, 0);
    expect_point(200, 300, 2);
    expect_point(200, 200, 2);
    expect_point(400, 400, 2);
    expect_point(100, 100, 1);
    expect_point(199, 300, 1);
    expect_point(201, 300, 0);
    expect_point(1000, 500, 2);
    expect_point(1500, 500, 0);
    expect_point(INT64_MIN, INT64_MAX, 0);
}

static void places(void) {
    const int64_t edge[] = {0, 200, 200, 200, 200, 400, 0, 400}, corner[] = {0, 500, 300, 300, 300, 700}, at_corner[] = {1000, 1000, 700, 700, 600, 800};
    const int64_t short_of[] = {1, 500, 300, 300, 300, 700}, past[] = {-1, 500, 300, 300, 300, 700}, beside[] = {1200, 0, 1400, 0, 1300, 100};
    const int64_t round_it[] = {-1, -1, 1001, -1, 1001, 1001, -1, 1001}, across[] = {500, -100, 600, 1100, 400, 1100};
    expect_pair(edge, 4, 15);
    expect_pair(corner, 3, 15);
    expect_pair(at_corner, 3, 15);
    expect_pair(short_of, 3, 0);
    expect_pair(past, 3, 15);
    expect_pair(beside, 3, 15);
    expect_pair(round_it, 4, 15);
    expect_pair(across, 3, 15);
    expect_pair(SQUARE, 4, 15);
}

/* ---- two ponds, in both orders */

static void expect_ponds(const int64_t *other, size_t corners, int accept) {
    begin(SQUARE, 4);
    append_ring(&made, POND, 4);
    append_ring(&made, other, corners);
    expect_field(&made, accept, 0);
    begin(SQUARE, 4);
    append_ring(&made, other, corners);
    append_ring(&made, POND, 4);
    expect_field(&made, accept, 0);
}

static void two_ponds(void) {
    const int64_t island[] = {250, 250, 350, 250, 300, 350}, round_it[] = {100, 100, 500, 100, 500, 500, 100, 500};
    const int64_t along[] = {400, 250, 600, 250, 600, 350, 400, 350}, at_corner[] = {400, 400, 500, 600, 600, 500};
    const int64_t beside[] = {401, 401, 500, 600, 600, 500}, through[] = {300, 100, 320, 500, 280, 500};
    expect_ponds(island, 3, 15);
    expect_ponds(round_it, 4, 15);
    expect_ponds(along, 4, 15);
    expect_ponds(at_corner, 3, 15);
    expect_ponds(beside, 3, 0);
    expect_ponds(through, 3, 15);
    expect_ponds(POND, 4, 15);
    /* a pond in the bay of another is not inside it */
    const int64_t bay[] = {150, 150, 450, 150, 450, 160, 160, 160, 160, 440, 450, 440, 450, 450, 150, 450};
    expect_ponds(bay, 8, 0);
    expect_point(155, 300, 0);
    expect_point(180, 300, 1);
}

/* ---- crossed rings */

static void crossed(void) {
    const int64_t bow[] = {0, 0, 1000, 1000, 1000, 0, 0, 1000}, twice[] = {300, 300, 300, 300, 350, 350};
    begin(bow, 4);
    append_ring(&made, POND, 4);
    expect_crossed(0, 0, 2, 2);
    /* a crossed ring outside the outer one is 9, not 15 */
    begin(POND, 4);
    append_ring(&made, bow, 4);
    expect_crossed(1, 0, 2, 2);
    begin(SQUARE, 4);
    append_ring(&made, twice, 3);
    expect_crossed(1, 0, 1, 1);
    expect_point(500, 100, 1);
    expect_point(325, 325, 2);
}

/* ---- counts */

/* Counts of the square and the pond, or others in their place. Where they do not add up it is 6, also where the outer ring's 7 stands at the first corner. */
static void expect_counts(size_t rings, uint32_t first, uint32_t second, uint32_t third, size_t numbers, int adds_up) {
    const uint32_t counts[3] = {first, second, third};
    for (int far = 0; far < 2; far++) {
        begin(SQUARE, 4);
        append_ring(&made, POND, 4);
        if (far) made.corners[0] = LARGEST + 1;
        memcpy(made.counts, counts, sizeof counts);
        made.rings = rings, made.numbers = numbers;
        int owed = !adds_up ? 6 : far ? 7 : 0;
        expect_field(&made, owed, owed);
    }
}

static void sums(void) {
    const uint32_t half = 0x80000000u, most = 0xffffffffu;
    expect_counts(1, 4, 0, 0, 8, 1);
    expect_counts(2, 4, 4, 0, 16, 1);
    expect_counts(0, 4, 4, 0, 16, 0);
    expect_counts(0, 4, 4, 0, 0, 0);
    expect_counts(1, 0, 4, 0, 0, 0);
    expect_counts(1, 4, 4, 0, 16, 0);
    for (size_t numbers = 0; numbers <= 20; numbers++)
        if (numbers != 16) expect_counts(2, 4, 4, 0, numbers, 0);
    expect_counts(1, half + 4, 0, 0, 8, 0);
    expect_counts(2, 4, half + 4, 0, 16, 0);
    expect_counts(2, 4, most, 0, 8, 0);
    expect_counts(3, 4, half, half, 8, 0);
    expect_counts(3, 4, half + 2, half + 2, 16, 0);
    expect_counts(3, 4, most, 5, 16, 0);
    expect_counts(3, 8, most, 1, 16, 0);
    expect_counts(3, most, 5, 4, 16, 0);
}

/* ---- numbers and spans at their limits */

static void expect_far(int64_t x, int64_t y, int64_t width, int owed) {
    const int64_t inner[6] = {x + 1, y + 1, x + width - 1, y + 2, x + 2, y + width - 1};
    int64_t outer[8];
    square_ring(outer, x, y, width);
    begin(outer, 4);
    append_ring(&made, inner, 3);
    expect_field(&made, owed, owed);
}

static void far_fields(void) {
    expect_far(LARGEST - SPAN, -LARGEST, SPAN, 0);
    expect_point(LARGEST, SPAN / 2 - LARGEST, 2);
    expect_point(LARGEST - 1, SPAN / 2 - LARGEST, 1);
    expect_point(LARGEST - SPAN + 3, 3 - LARGEST, 0);
    expect_far(LARGEST - SPAN + 1, 0, SPAN, 7);
    expect_far(0, -LARGEST - 1, SPAN, 7);
    expect_far(-LARGEST, LARGEST - SPAN - 1, SPAN + 1, 8);
}

/* ---- counts of corners at their limits */

/* A strip with a corner at every step of its two long sides: a clean ring of any count from 3. */
static void append_strip(size_t corners, int64_t x, int64_t y, int64_t step, int64_t height) {
    int64_t numbers[2 * MOST_CORNERS];
    size_t there = (corners + 1) / 2;
    for (size_t i = 0; i < corners; i++) {
        numbers[2 * i] = x + step * (int64_t)(i < there ? i : corners - 1 - i);
        numbers[2 * i + 1] = i < there ? y : y + height;
    }
    append_ring(&made, numbers, corners);
}

static void corner_limits(void) {
    const size_t inner[][2] = {{2, 6}, {3, 0}, {127, 0}, {128, 0}, {129, 6}, {130, 6}, {256, 6}, {1024, 6}};
    const size_t outer[][2] = {{2, 6}, {3, 0}, {128, 0}, {129, 0}, {1023, 0}, {1024, 0}, {1025, 6}, {1026, 6}};
    for (size_t i = 0; i < 8; i++) {
        begin(SQUARE, 4);
        append_strip(inner[i][0], 10, 10, 1, 50);
        append_ring(&made, POND, 4);
        expect_field(&made, (int)inner[i][1], (int)inner[i][1]);
        begin_field(&made);
        append_strip(outer[i][0], 0, 0, 5000, 5000);
        append_ring(&made, POND, 4);
        expect_field(&made, (int)outer[i][1], (int)outer[i][1]);
    }
    begin_field(&made);
    append_strip(1024, 0, 0, 10, 2000);
    for (int64_t pond = 0; pond < 16; pond++) append_strip(128, 10 + 100 * (pond % 4), 10 + 400 * (pond / 4), 1, 50);
    expect_field(&made, 0, 0);
}

void known_fields(void) {
    pond_points();
    places();
    two_ponds();
    crossed();
    sums();
    far_fields();
    corner_limits();
}
