/* See field_calls.h. */
#include "field_calls.h"

#include <string.h>

#include "../../include/misgwalor.h"
#include "random.h"
#include "report.h"

/* The pieces of lend.h. */
enum { CORNERS = 0, ANSWER = 1, WHERE = 2, COUNTS = 4 };

static struct field field;
static struct field_verdict verdict;

struct field_verdict lay_field(const struct made_field *made) {
    uint32_t *counts = lend_counts(COUNTS, made->rings);
    int64_t *corners = lend(CORNERS, made->numbers);
    memcpy(counts, made->counts, made->rings * sizeof(uint32_t));
    memcpy(corners, made->corners, made->numbers * sizeof(int64_t));
    lend_note(COUNTS);
    lend_note(CORNERS);
    field = (struct field){counts, made->rings, corners, made->numbers};
    verdict = judge_field(&field, &BY_COMPUTING);
    return verdict;
}

const struct field *laid_field(void) { return &field; }

/* Counts the case. A difference is printed with how many rings there are, their counts, the point and the corners. */
static void judge_case(int right, enum call call, int returned, const char *what, int64_t px, int64_t py) {
    static int64_t shown[MOST_RINGS + 3 + LEND_MOST];
    size_t count = 0;
    if (!right) {
        shown[count++] = (int64_t)field.rings;
        for (size_t k = 0; k < field.rings; k++) shown[count++] = field.counts[k];
        shown[count++] = px, shown[count++] = py;
        memcpy(shown + count, field.corners, field.numbers * sizeof(int64_t));
        count += field.numbers;
    }
    judge(right, call, returned, what, shown, count);
}

void expect_judge(int right, const char *what) { judge_case(right, JUDGE, 0, what, 0, 0); }

static int inputs_kept(void) { return lend_kept(COUNTS, 0) && lend_kept(CORNERS, 0); }

/* Whether the array lent for the place of a crossing is right: written on 9 and kept else. */
static int where_right(const int64_t *where) {
    return verdict.accept == 9 ? memcmp(where, verdict.where, sizeof verdict.where) == 0 && lend_kept(WHERE, 4) : lend_kept(WHERE, 0);
}

void try_field_accept(void) {
    int64_t *where = lend(WHERE, 4);
    uint8_t returned = misgwalor_field_accept(field.counts, field.rings, field.corners, field.numbers, where);
    judge_case(returned == verdict.accept && where_right(where) && inputs_kept(), FIELD_ACCEPT, returned, "rings, counts, 0, 0, corners", 0, 0);
}

static void try_nozzle(int64_t px, int64_t py, int64_t stands) {
    int64_t *answer = lend(ANSWER, 1), *where = lend(WHERE, 4);
    uint8_t returned = misgwalor_field_nozzle(field.counts, field.rings, field.corners, field.numbers, px, py, answer, where);
    int right = returned == verdict.accept && lend_answered(ANSWER, verdict.accept, stands) && where_right(where) && inputs_kept();
    judge_case(right, FIELD_NOZZLE, returned, "rings, counts, point, corners", px, py);
}

static void try_position(int64_t px, int64_t py, int64_t stands) {
    int64_t *answer = lend(ANSWER, 1);
    uint8_t returned = misgwalor_field_position(field.counts, field.rings, field.corners, field.numbers, px, py, answer);
    int right = returned == verdict.position && lend_answered(ANSWER, verdict.position, stands) && inputs_kept();
    judge_case(right, FIELD_POSITION, returned, "rings, counts, point, corners", px, py);
}

void try_field_point(int64_t px, int64_t py) {
    int64_t stands = verdict.position ? 0 : judge_standing(&field, &BY_COMPUTING, px, py);
    try_nozzle(px, py, stands);
    try_position(px, py, stands);
}

/* A point near one of the rings; where the counts do not tell them apart, near the corners as if they were one ring. */
static void random_field_point(int64_t *px, int64_t *py) {
    size_t count = field.numbers;
    const int64_t *ring = judge_adds_up(&field) ? ring_of(&field, random_below(field.rings), &count) : field.corners;
    random_point(ring, count, px, py);
}

void try_field(int points) {
    try_field_accept();
    for (int i = 0; i < points; i++) {
        int64_t px, py;
        random_field_point(&px, &py);
        try_field_point(px, py);
    }
}

void expect_field(const struct made_field *made, int accept, int position) {
    lay_field(made);
    expect_judge(verdict.accept == accept && verdict.position == position, "worked field");
    try_field(2);
}
