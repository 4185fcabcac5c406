/* The ring calls on random rings and points, held to ring_judge. Assumes nothing. */
#include <string.h>

#include "../../include/misgwalor.h"
#include "cases.h"
#include "lend.h"
#include "makers.h"
#include "random.h"
#include "report.h"
#include "ring_judge.h"

/* The pieces of lend.h. */
enum { CORNERS = 0, ANSWER = 1, EDGES = 2, PAIRS = 3 };

static int64_t *ring;
static size_t count;
static struct ring_verdict verdict;

/* The ring as the calls get it, with the judge's verdict of it. */
static void lay(const int64_t *numbers, size_t length, int with_crossing) {
    ring = lend(CORNERS, length);
    memcpy(ring, numbers, length * sizeof(int64_t));
    lend_note(CORNERS);
    count = length;
    verdict = judge_ring(ring, count, with_crossing);
}

static int edges_right(uint8_t returned, const int64_t *edges) {
    return returned == 9 ? edges[0] == verdict.low && edges[1] == verdict.high && lend_kept(EDGES, 2) : lend_kept(EDGES, 0);
}

/* Whether the array lent for the pairs looked at is right: written on 9, and on 0 where the call says a clean ring's too; kept else. */
static int pairs_right(uint8_t returned, const int64_t *pairs, int clean_too) {
    int written = returned == 9 || (clean_too && returned == 0);
    return written ? pairs[0] == verdict.looked && lend_kept(PAIRS, 1) : lend_kept(PAIRS, 0);
}

static void try_area(void) {
    int64_t *answer = lend(ANSWER, 1);
    uint8_t returned = misgwalor_area2(ring, count, answer);
    int right = returned == verdict.refusal && lend_answered(ANSWER, verdict.refusal, verdict.area2) && lend_kept(CORNERS, 0);
    judge(right, AREA2, returned, "ring", ring, count);
}

static void try_turning(int64_t px, int64_t py) {
    int64_t *answer = lend(ANSWER, 1);
    uint8_t returned = misgwalor_turning_number(ring, count, px, py, answer);
    int64_t turns = verdict.refusal ? 0 : judge_turning(ring, count, px, py);
    int right = returned == verdict.refusal && lend_answered(ANSWER, verdict.refusal, turns) && lend_kept(CORNERS, 0);
    judge(right, TURNING_NUMBER, returned, "ring", ring, count);
}

static void try_crossing(void) {
    int64_t *edges = lend(EDGES, 2), *pairs = lend(PAIRS, 1);
    uint8_t returned = misgwalor_crossing(ring, count, edges, pairs);
    int owed = verdict.refusal ? verdict.refusal : verdict.crossed ? 9 : 0;
    int right = returned == owed && edges_right(returned, edges) && pairs_right(returned, pairs, 1) && lend_kept(CORNERS, 0);
    judge(right, CROSSING, returned, "ring", ring, count);
}

static void try_nozzle(int64_t px, int64_t py) {
    int64_t *answer = lend(ANSWER, 1), *edges = lend(EDGES, 2), *pairs = lend(PAIRS, 1);
    uint8_t returned = misgwalor_nozzle(ring, count, px, py, answer, edges, pairs);
    int owed = verdict.refusal ? verdict.refusal : verdict.crossed ? 9 : 0;
    int64_t stands = 0;
    if (!owed) stands = judge_border(ring, count, px, py) ? 2 : judge_turning(ring, count, px, py) != 0 ? 1 : 0;
    int right = returned == owed && lend_answered(ANSWER, owed, stands) && edges_right(returned, edges);
    right = right && pairs_right(returned, pairs, 0) && lend_kept(CORNERS, 0);
    judge(right, NOZZLE, returned, "ring", ring, count);
}

static void try_all(int points) {
    try_area();
    try_crossing();
    for (int i = 0; i < points; i++) {
        int64_t px, py;
        random_point(ring, count, &px, &py);
        try_turning(px, py);
        try_nozzle(px, py);
    }
}

/* Corners within 0 to 4, judged by the rule's own words as well: the judge's two ways have to agree before the library is asked. */
static void small_rings(uint64_t rounds) {
    for (uint64_t i = 0; i < rounds; i++) {
        int64_t numbers[16];
        size_t length = 2 * (3 + random_below(6));
        for (size_t j = 0; j < length; j++) numbers[j] = random_between(0, 4);
        lay(numbers, length, 1);
        struct ring_verdict words = verdict;
        judge_crossing_by_search(ring, count, &words);
        int agree = words.crossed == verdict.crossed && (!words.crossed || (words.low == verdict.low && words.high == verdict.high));
        judge(agree, JUDGE, 0, "crossing by the rule's words", ring, count);
        try_all(1);
    }
}

/* Rings that are clean but for one corner, pulled across a side: the first crossed pair comes at any place, also far on in a large ring. */
static void late_crossings(uint64_t rounds) {
    static int64_t numbers[2048];
    for (uint64_t i = 0; i < rounds; i++) {
        lay(numbers, pulled_ring(numbers), 1);
        try_all(1);
    }
}

void ring_cases(uint64_t rounds) {
    static int64_t numbers[LEND_MOST];
    for (uint64_t i = 0; i < rounds; i++) {
        size_t length = random_ring(numbers, 2052);
        lay(numbers, length, 1);
        try_all(length > 200 ? 3 : 4);
    }
    small_rings(rounds / 100);
    late_crossings(rounds / 100);
}

/* ---- the worked numbers of document 01 */

static void expect_ring(const int64_t *numbers, size_t length, int64_t area2, int crossed) {
    lay(numbers, length, 1);
    judge(verdict.refusal == 0 && verdict.area2 == area2 && verdict.crossed == crossed, JUDGE, 0, "document 01", ring, count);
    try_area();
    try_crossing();
}

static void expect_point(int64_t px, int64_t py, int64_t turns, int border) {
    judge(judge_turning(ring, count, px, py) == turns && judge_border(ring, count, px, py) == border, JUDGE, 0, "document 01", ring, count);
    try_turning(px, py);
    try_nozzle(px, py);
}

static void expect_refusal(const int64_t *numbers, size_t length, int refusal) {
    lay(numbers, length, 1);
    judge(verdict.refusal == refusal, JUDGE, 0, "document 01", ring, count);
    try_all(2);
}

void known_rings(void) {
    const int64_t square[] = {0, 0, 1000, 0, 1000, 1000, 0, 1000}, reversed[] = {0, 1000, 1000, 1000, 1000, 0, 0, 0};
    const int64_t bow[] = {0, 0, 1000, 1000, 1000, 0, 0, 1000}, half[] = {0, 0, 1000, 0, 1000, 1000}, other[] = {0, 0, 1000, 1000, 0, 1000};
    expect_ring(square, 8, 2000000, 0);
    expect_point(500, 500, 1, 0);
    expect_point(0, 500, 1, 1);
    expect_point(1000, 500, 0, 1);
    expect_point(1500, 500, 0, 0);
    expect_ring(reversed, 8, -2000000, 0);
    expect_ring(half, 6, 1000000, 0);
    expect_ring(other, 6, 1000000, 0);
    expect_ring(bow, 8, 0, 1);
    judge(verdict.low == 0 && verdict.high == 2 && verdict.looked == 2, JUDGE, 0, "P12", ring, count);
    expect_point(900, 500, -1, 0);
    expect_point(100, 500, 1, 0);
    expect_point(500, 100, 0, 0);
    expect_point(500, 900, 0, 0);
    const int64_t wide[] = {0, 0, 20000000, 0, 0, 5}, wider[] = {0, 0, 20000001, 0, 0, 5}, large[] = {10000000000, 0, 10000000000, 9, 9999999999, 5};
    const int64_t larger[] = {10000000001, 0, 10000000000, 9, 9999999999, 5};
    expect_ring(wide, 6, 100000000, 0);
    expect_ring(large, 6, 9, 0);
    expect_refusal(wider, 6, 8);
    expect_refusal(larger, 6, 7);
    expect_refusal(square, 4, 6);
    expect_refusal(square, 7, 6);
    expect_refusal(square, 0, 6);
}
