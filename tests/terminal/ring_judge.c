/* See ring_judge.h. "01" is document 01, Rings. */
#include "ring_judge.h"

#include <math.h>

typedef __int128 wide;

struct point {
    wide x, y;
};

/* Corner k, counted on past the last one by one: the first again. */
static struct point corner(const int64_t *numbers, size_t count, size_t k) {
    size_t i = k == count / 2 ? 0 : k;
    return (struct point){numbers[2 * i], numbers[2 * i + 1]};
}

static struct point less(struct point a, struct point b) { return (struct point){a.x - b.x, a.y - b.y}; }
static wide cross(struct point a, struct point b) { return a.x * b.y - b.x * a.y; }
static wide dot(struct point a, struct point b) { return a.x * b.x + a.y * b.y; }
static int same(struct point a, struct point b) { return a.x == b.x && a.y == b.y; }

/* ---- 6, 7, 8 */

static int span_too_large(const int64_t *numbers, size_t count, size_t axis) {
    wide least = numbers[axis], most = numbers[axis];
    for (size_t i = axis; i < count; i += 2) {
        if (numbers[i] < least) least = numbers[i];
        if (numbers[i] > most) most = numbers[i];
    }
    return most - least > 20000000;
}

static int refusal(const int64_t *numbers, size_t count) {
    if (count % 2 != 0 || count / 2 < 3 || count / 2 > 1024) return 6;
    for (size_t i = 0; i < count; i++)
        if ((wide)numbers[i] > 10000000000 || (wide)numbers[i] < -10000000000) return 7;
    return span_too_large(numbers, count, 0) || span_too_large(numbers, count, 1) ? 8 : 0;
}

/* ---- sharing a point: a + s(b - a) = c + t(d - c) with s and t from 0 to 1 */

/* Whether p is a + s(b - a) for an s from 0 to 1. */
static int lies_on(struct point p, struct point a, struct point b) {
    struct point along = less(b, a), to = less(p, a);
    return cross(along, to) == 0 && (same(a, b) ? same(p, a) : dot(along, to) >= 0 && dot(along, to) <= dot(along, along));
}

static int between(wide part, wide whole) { return whole > 0 ? 0 <= part && part <= whole : whole <= part && part <= 0; }

static inline int share(struct point a, struct point b, struct point c, struct point d) {
    struct point u = less(b, a), v = less(d, c), w = less(c, a);
    wide whole = cross(u, v);
    if (whole != 0) return between(cross(w, v), whole) && between(cross(w, u), whole);
    /* parallel, or one of no length: what they share has an end of one of them in it */
    return lies_on(a, c, d) || lies_on(b, c, d) || lies_on(c, a, b) || lies_on(d, a, b);
}

/* Neighbours a-b and b-c, in this order: "share a point that is not the common corner", or "an edge of no length also makes a pair with the edge after it". */
static int folds(struct point a, struct point b, struct point c) {
    struct point back = less(a, b), on = less(c, b);
    return same(a, b) || (cross(back, on) == 0 && dot(back, on) > 0);
}

/* ---- crossed: "the first in order of lower edge number, then higher" */

static inline int crossed_pair(const int64_t *numbers, size_t count, size_t k, size_t l) {
    size_t n = count / 2;
    struct point a = corner(numbers, count, k), b = corner(numbers, count, k + 1), c = corner(numbers, count, l), d = corner(numbers, count, l + 1);
    if (l == k + 1) return folds(a, b, d);
    if (k == 0 && l == n - 1) return folds(c, a, b);
    return share(a, b, c, d);
}

/* The first pair of edges for which the question is answered by yes. */
static inline void first_pair(const int64_t *numbers, size_t count, struct ring_verdict *verdict, int (*asked)(const int64_t *, size_t, size_t, size_t)) {
    verdict->crossed = 0, verdict->looked = 0;
    for (size_t k = 0; k < count / 2; k++)
        for (size_t l = k + 1; l < count / 2; l++) {
            verdict->looked++;
            if (!asked(numbers, count, k, l)) continue;
            verdict->crossed = 1;
            verdict->low = (int64_t)k;
            verdict->high = (int64_t)l;
            return;
        }
}

static void find_crossing(const int64_t *numbers, size_t count, struct ring_verdict *verdict) { first_pair(numbers, count, verdict, crossed_pair); }

struct ring_verdict judge_ring(const int64_t *numbers, size_t count, int with_crossing) {
    struct ring_verdict verdict = {0};
    verdict.refusal = refusal(numbers, count);
    if (verdict.refusal) return verdict;
    wide sum = 0;
    for (size_t k = 0; k < count / 2; k++) sum += cross(corner(numbers, count, k), corner(numbers, count, k + 1));
    verdict.area2 = (int64_t)sum;
    if (with_crossing) find_crossing(numbers, count, &verdict);
    return verdict;
}

/* ---- turning number and border, as 01 prints them */

int64_t judge_turning(const int64_t *numbers, size_t count, int64_t px, int64_t py) {
    int64_t turns = 0;
    for (size_t k = 0; k < count / 2; k++) {
        struct point a = corner(numbers, count, k), b = corner(numbers, count, k + 1);
        wide d = (b.x - a.x) * (py - a.y) - (px - a.x) * (b.y - a.y);
        if (a.x <= px && px < b.x && d > 0) turns++;
        if (b.x <= px && px < a.x && d < 0) turns--;
    }
    return turns;
}

int judge_border(const int64_t *numbers, size_t count, int64_t px, int64_t py) {
    struct point p = {px, py};
    for (size_t k = 0; k < count / 2; k++)
        if (lies_on(p, corner(numbers, count, k), corner(numbers, count, k + 1))) return 1;
    return 0;
}

/* ---- two rings: every edge of one and every edge of the other */

static inline int any_edges(const int64_t *numbers, size_t count, const int64_t *others, size_t other_count,
                     int (*asked)(struct point, struct point, struct point, struct point)) {
    for (size_t k = 0; k < count / 2; k++)
        for (size_t l = 0; l < other_count / 2; l++)
            if (asked(corner(numbers, count, k), corner(numbers, count, k + 1), corner(others, other_count, l), corner(others, other_count, l + 1))) return 1;
    return 0;
}

static int meeting(const int64_t *numbers, size_t count, const int64_t *others, size_t other_count) {
    return any_edges(numbers, count, others, other_count, share);
}

const struct ring_way BY_COMPUTING = {find_crossing, meeting, judge_border, judge_turning};

/* ---- the rule's own words on small corners */

static int size(wide number) { return (int)(number < 0 ? -number : number); }
static int larger(int a, int b) { return a < b ? b : a; }

/* The largest m that is needed: lines that cross do so at whole parts of their determinant; and what parallel lines share has an end of one of them in it, which
   lies on the other at whole parts of the other's sides. */
static int largest_needed(struct point along, struct point other) {
    int determinant = size(along.x) * size(other.y) + size(along.y) * size(other.x);
    int sides = larger(larger(size(along.x), size(along.y)), larger(size(other.x), size(other.y)));
    return larger(1, larger(determinant, sides));
}

/* Whole m > 0 and i, j from 0 to m with (m-i)·a + i·b = (m-j)·c + j·d; for neighbours the sum is not m times their common corner. */
static int share_by_search(struct point a, struct point b, struct point c, struct point d, const struct point *common) {
    int most = largest_needed(less(b, a), less(d, c));
    for (int m = 1; m <= most; m++)
        for (int i = 0; i <= m; i++) {
            struct point sum = {(m - i) * a.x + i * b.x, (m - i) * a.y + i * b.y};
            if (common && sum.x == m * common->x && sum.y == m * common->y) continue;
            for (int j = 0; j <= m; j++)
                if (sum.x == (m - j) * c.x + j * d.x && sum.y == (m - j) * c.y + j * d.y) return 1;
        }
    return 0;
}

static int pair_by_search(const int64_t *numbers, size_t count, size_t k, size_t l) {
    size_t n = count / 2;
    struct point a = corner(numbers, count, k), b = corner(numbers, count, k + 1), c = corner(numbers, count, l), d = corner(numbers, count, l + 1);
    if (l == k + 1) return same(a, b) || share_by_search(a, b, c, d, &b);
    if (k == 0 && l == n - 1) return same(c, d) || share_by_search(a, b, c, d, &a);
    return share_by_search(a, b, c, d, 0);
}

void judge_crossing_by_search(const int64_t *numbers, size_t count, struct ring_verdict *verdict) { first_pair(numbers, count, verdict, pair_by_search); }

static int edges_by_search(struct point a, struct point b, struct point c, struct point d) { return share_by_search(a, b, c, d, 0); }

static int meeting_by_search(const int64_t *numbers, size_t count, const int64_t *others, size_t other_count) {
    return any_edges(numbers, count, others, other_count, edges_by_search);
}

/* A point is the line from itself to itself. */
static int border_by_search(const int64_t *numbers, size_t count, int64_t px, int64_t py) {
    struct point p = {px, py};
    for (size_t k = 0; k < count / 2; k++)
        if (share_by_search(p, p, corner(numbers, count, k), corner(numbers, count, k + 1), 0)) return 1;
    return 0;
}

/* The angle from a to b as seen from the point, clockwise counted positive, summed over the edges: so many whole turns. */
static int64_t turning_by_angles(const int64_t *numbers, size_t count, int64_t px, int64_t py) {
    struct point p = {px, py};
    long double sum = 0;
    for (size_t k = 0; k < count / 2; k++) {
        struct point a = less(corner(numbers, count, k), p), b = less(corner(numbers, count, k + 1), p);
        long double ax = a.x, ay = a.y, bx = b.x, by = b.y;
        sum += atan2l(ax * by - bx * ay, ax * bx + ay * by);
    }
    return (int64_t)llroundl(sum / (2 * acosl(-1)));
}

const struct ring_way BY_SEARCH = {judge_crossing_by_search, meeting_by_search, border_by_search, turning_by_angles};
