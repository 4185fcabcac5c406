/* See field_judge.h. "02" is document 02, request (i). */
#include "field_judge.h"

static const size_t INNER_RINGS = 16, INNER_CORNERS = 128;

int judge_adds_up(const struct field *field) {
    unsigned __int128 sum = 0;
    for (size_t k = 0; k < field->rings; k++) sum += field->counts[k];
    return field->rings > 0 && 2 * sum == field->numbers;
}

const int64_t *ring_of(const struct field *field, size_t ring, size_t *count) {
    size_t before = 0;
    for (size_t k = 0; k < ring; k++) before += field->counts[k];
    *count = 2 * (size_t)field->counts[ring];
    return field->corners + 2 * before;
}

/* ---- 16, 6, 7 and 8, which a ring has by its place and its numbers alone */

static int limits(const struct field *field, size_t ring) {
    size_t count;
    const int64_t *numbers = ring_of(field, ring, &count);
    if (ring > INNER_RINGS) return 16;
    if (ring > 0 && count > 2 * INNER_CORNERS) return 6;
    return judge_ring(numbers, count, 0).refusal;
}

/* ---- 15 */

static int meet(const struct field *field, const struct ring_way *way, size_t ring, size_t other) {
    size_t count, other_count;
    const int64_t *numbers = ring_of(field, ring, &count), *others = ring_of(field, other, &other_count);
    return way->meeting(numbers, count, others, other_count);
}

/* "An inner ring lies strictly inside the outer ring": each corner of it. */
static int strictly_inside(const struct field *field, const struct ring_way *way, size_t ring) {
    size_t count, outer_count;
    const int64_t *numbers = ring_of(field, ring, &count), *outer = ring_of(field, 0, &outer_count);
    for (size_t i = 0; i < count; i += 2) {
        if (way->border(outer, outer_count, numbers[i], numbers[i + 1])) return 0;
        if (way->turning(outer, outer_count, numbers[i], numbers[i + 1]) == 0) return 0;
    }
    return 1;
}

/* "Inner rings may not lie inside each other": a corner of one has a turning number other than 0 in the other. Asked only of rings that do not meet. */
static int lies_inside(const struct field *field, const struct ring_way *way, size_t ring, size_t other) {
    size_t count, other_count;
    const int64_t *numbers = ring_of(field, ring, &count), *others = ring_of(field, other, &other_count);
    for (size_t i = 0; i < count; i += 2)
        if (way->turning(others, other_count, numbers[i], numbers[i + 1]) != 0) return 1;
    return 0;
}

static int badly_placed(const struct field *field, const struct ring_way *way, size_t ring) {
    for (size_t k = 0; k < ring; k++)
        if (meet(field, way, ring, k)) return 1;
    for (size_t k = 1; k < ring; k++)
        if (lies_inside(field, way, ring, k) || lies_inside(field, way, k, ring)) return 1;
    return !strictly_inside(field, way, ring);
}

/* ---- ring by ring */

static int refusal_of_ring(const struct field *field, const struct ring_way *way, size_t ring, int64_t *where) {
    int refusal = limits(field, ring);
    if (refusal) return refusal;
    struct ring_verdict verdict = {0};
    size_t count;
    const int64_t *numbers = ring_of(field, ring, &count);
    way->crossing(numbers, count, &verdict);
    if (verdict.crossed) {
        where[0] = (int64_t)ring, where[1] = verdict.low, where[2] = verdict.high, where[3] = verdict.looked;
        return 9;
    }
    return ring > 0 && badly_placed(field, way, ring) ? 15 : 0;
}

struct field_verdict judge_field(const struct field *field, const struct ring_way *way) {
    struct field_verdict verdict = {0};
    if (!judge_adds_up(field)) {
        verdict.accept = verdict.position = 6;
        return verdict;
    }
    for (size_t ring = 0; ring < field->rings && !verdict.accept; ring++) verdict.accept = refusal_of_ring(field, way, ring, verdict.where);
    for (size_t ring = 0; ring < field->rings && !verdict.position; ring++) verdict.position = limits(field, ring);
    return verdict;
}

/* ---- the nozzle: "open if the outer ring has it open and it is neither inside nor on an inner ring; on an inner edge it is border" */

int64_t judge_standing(const struct field *field, const struct ring_way *way, int64_t px, int64_t py) {
    int64_t open = 1;
    for (size_t ring = 0; ring < field->rings; ring++) {
        size_t count;
        const int64_t *numbers = ring_of(field, ring, &count);
        if (way->border(numbers, count, px, py)) return 2;
        int inside = way->turning(numbers, count, px, py) != 0;
        if (inside != (ring == 0)) open = 0;
    }
    return open;
}
