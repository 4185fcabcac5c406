/* Ring conversion on random rings, held corner by corner to misgwalor_plane_to_plane, which point_cases judges. Assumes nothing. */
#include <string.h>

#include "../../include/misgwalor.h"
#include "cases.h"
#include "lend.h"
#include "makers.h"
#include "random.h"
#include "report.h"
#include "ring_judge.h"

enum { CORNERS = 0, OUT = 3 };

static int krasovsky(int code) { return code > 7; }
static int known(int code) { return 1 <= code && code <= 14; }

/* What the call owes: the refusal, or 0 and the converted numbers. "1, 5, 6, 7, 8, 14, then its corners in order, the first refusal wins". */
static int owed(uint8_t from, uint8_t to, const int64_t *ring, size_t count, size_t room, int64_t *converted) {
    if (!known(from) || !known(to)) return 1;
    if (krasovsky(from) != krasovsky(to)) return 5;
    int refusal = judge_ring(ring, count, 0).refusal;
    if (refusal) return refusal;
    if (room < count) return 14;
    for (size_t i = 0; i < count; i += 2) {
        refusal = misgwalor_plane_to_plane(from, to, ring[i], ring[i + 1], converted + i);
        if (refusal) return refusal;
    }
    return 0;
}

/* Pairs of systems with a longitude in degrees that both serve, and one where one of them ends. */
static const struct served {
    uint8_t from, to;
    double inside, limit;
} SERVED[] = {
    {1, 3, 18, 19.5},   {3, 1, 18, 16.5},  {1, 4, 21, 22.5},  {4, 7, 21, 19.5},  {7, 4, 21, 22.5}, {2, 6, 15, 16.5},         {6, 2, 15, 13.5}, {9, 12, 21, 22.5},
    {12, 9, 21, 19.5},  {8, 10, 15, 16.5}, {14, 9, 19, 18},   {9, 14, 19, 18},   {3, 3, 18, 19.5}, {14, 14, 19, 16.9583333}, {5, 5, 24, 25.5}, {1, 1, 19, 24.5},
};

static size_t random_corners(void) { return 3 + random_below(one_in(60) ? 1022 : one_in(4) ? 200 : 10); }

/* A ring of corners within `spread` of the place of a latitude and longitude. */
static size_t ring_at(uint8_t from, double b, double l, int64_t spread, int64_t *numbers) {
    size_t count = 2 * random_corners();
    int64_t plane[4] = {0};
    misgwalor_forward(from, (int64_t)(b * 3600000000.0), (int64_t)(l * 3600000000.0), plane);
    for (size_t i = 0; i < count; i++) numbers[i] = plane[i % 2] + random_between(-spread, spread);
    return count;
}

/* Round a place that both systems serve; across the line where one of them ends; or on this side of it but for one corner, so that all before it are taken. */
static size_t served_ring(uint8_t *from, uint8_t *to, int64_t *numbers) {
    const struct served *chosen = &SERVED[random_below(sizeof SERVED / sizeof SERVED[0])];
    double b = one_in(8) ? 55.98 : 49 + (double)random_below(6000) / 1000, side = chosen->limit > chosen->inside ? 1 : -1;
    *from = chosen->from, *to = chosen->to;
    if (one_in(2)) return ring_at(*from, b, chosen->inside, one_in(2) ? 3000000 : 9999999, numbers);
    if (one_in(4)) return ring_at(*from, b, chosen->limit, 9999999, numbers);
    size_t count = ring_at(*from, b, chosen->limit - side * 0.03, 1000000, numbers);
    numbers[2 * random_below(count / 2) + 1] += (int64_t)side * 5000000;
    return count;
}

static void try_conversion(uint8_t from, uint8_t to, const int64_t *numbers, size_t count, size_t room) {
    static int64_t converted[LEND_MOST];
    int64_t *ring = lend(CORNERS, count), *out = lend(OUT, room);
    memcpy(ring, numbers, count * sizeof(int64_t));
    lend_note(CORNERS);
    int refusal = owed(from, to, ring, count, room, converted);
    uint8_t returned = misgwalor_convert_ring(from, to, ring, count, out, room);
    int held = refusal ? lend_kept(OUT, 0) : memcmp(out, converted, count * sizeof(int64_t)) == 0 && lend_kept(OUT, count);
    judge(returned == refusal && held && lend_kept(CORNERS, 0), CONVERT_RING, returned, "ring", ring, count);
}

void conversion_cases(uint64_t rounds) {
    static int64_t numbers[LEND_MOST];
    for (uint64_t i = 0; i < rounds; i++) {
        uint8_t from = (uint8_t)random_below(16), to = one_in(3) ? (uint8_t)random_below(16) : from;
        size_t count = one_in(3) ? random_ring(numbers, 2052) : served_ring(&from, &to, numbers);
        if (one_in(20) && count > 0) numbers[random_below(count)] = random_wild();
        size_t room = one_in(4) ? count - (count > 0 ? random_below(count < 3 ? 1 : 3) : 0) : count + random_below(5);
        try_conversion(from, to, numbers, count, room);
    }
}
