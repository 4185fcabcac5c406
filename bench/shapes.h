// The rings that are timed and the points that are asked for.
#pragma once
#include <cmath>
#include <vector>

#include "timing.h"

struct Ring {
    const char *name;
    std::vector<int64_t> numbers;
    size_t corners() const { return numbers.size() / 2; }
};

static const int64_t RADIUS = 9000000;

struct Place {
    int64_t x, y;
};

// Corners in the order of their directions from a middle, at random distances from `least` of the radius to all of it.
static inline std::vector<int64_t> around(Random random, Place middle, double radius, double least, int corners) {
    std::vector<int64_t> made;
    for (int k = 0; k < corners; k++) {
        double angle = 2 * M_PI * k / corners, distance = radius * (least + (1 - least) * random.unit());
        made.push_back(middle.x + llround(distance * cos(angle)));
        made.push_back(middle.y + llround(distance * sin(angle)));
    }
    return made;
}

static const Place MIDDLE = {5800000000, 6400000000};

// A border as growers have them: corners in the order of their directions, at distances that vary.
static inline Ring field(int corners) { return {"field", around(Random(7 + corners), MIDDLE, RADIUS, 0.6, corners)}; }

// Long thin teeth side by side: every box of an edge meets the boxes of few others, and a line across meets many edges.
static inline Ring comb(int corners) {
    int teeth = (corners - 2) / 4;
    int64_t pitch = 2 * RADIUS / teeth;
    Ring made{"comb", {-RADIUS, -RADIUS}};
    for (int k = 0; k < teeth; k++) {
        int64_t y = -RADIUS + k * pitch;
        for (int64_t number : {(int64_t)0, y, RADIUS, y + pitch / 4, RADIUS, y + pitch / 2, (int64_t)0, y + 3 * pitch / 4}) made.numbers.push_back(number);
    }
    made.numbers.push_back(-RADIUS);
    made.numbers.push_back(RADIUS);
    while (made.corners() < (size_t)corners) {
        // more corners along the closing side
        int64_t left = corners - made.corners();
        made.numbers.push_back(-RADIUS);
        made.numbers.push_back(RADIUS - 1000 * (3 - left));
    }
    return made;
}

// The same corners with two that lie opposite exchanged, which crosses most rings.
static inline Ring exchanged(Ring ring) {
    size_t half = ring.corners() / 2 * 2;
    std::swap(ring.numbers[0], ring.numbers[half]);
    std::swap(ring.numbers[1], ring.numbers[half + 1]);
    return ring;
}

// Random places of the ring's box.
static inline std::vector<Place> places_of(const Ring &ring, int count) {
    Random random(99);
    int64_t low[2] = {INT64_MAX, INT64_MAX}, high[2] = {INT64_MIN, INT64_MIN};
    for (size_t k = 0; k < ring.numbers.size(); k++) {
        low[k % 2] = std::min(low[k % 2], ring.numbers[k]);
        high[k % 2] = std::max(high[k % 2], ring.numbers[k]);
    }
    std::vector<Place> made;
    for (int k = 0; k < count; k++) {
        int64_t x = random.between(low[0], high[0]);
        made.push_back({x, random.between(low[1], high[1])});
    }
    return made;
}

static inline std::vector<Place> corners_of(const Ring &ring) {
    std::vector<Place> made;
    for (size_t k = 0; k < ring.numbers.size(); k += 2) made.push_back({ring.numbers[k], ring.numbers[k + 1]});
    return made;
}
