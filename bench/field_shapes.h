// The fields that are timed, rings with ponds in them, and the same fields damaged.
#pragma once
#include "shapes.h"

// The outer ring comes first.
struct Field {
    const char *name;
    std::vector<Ring> rings;
    size_t corners() const {
        size_t sum = 0;
        for (const Ring &ring : rings) sum += ring.corners();
        return sum;
    }
};

// How many corners the outer ring has, how many ponds there are, and how many corners each has.
struct Size {
    int outer, ponds, inner;
};

// Ponds in rows and columns well inside a border, no two of whose boxes touch. With `least` below 1 the rings are jagged.
static inline Field in_rows(const char *name, const Size &size, double least) {
    Field made{name, {{"outer", around(Random(7 + size.outer), MIDDLE, RADIUS, least, size.outer)}}};
    int columns = (int)ceil(sqrt(size.ponds)), rows = size.ponds / columns;
    double apart = 0.8 * RADIUS / columns;
    for (int k = 0; k < size.ponds; k++) {
        double x = (k / columns - (rows - 1) / 2.0) * apart, y = (k % columns - (columns - 1) / 2.0) * apart;
        Place middle = {MIDDLE.x + llround(x), MIDDLE.y + llround(y)};
        made.rings.push_back({"pond", around(Random(900 + k), middle, 0.45 * apart, least, size.inner)});
    }
    return made;
}

static inline Field jagged(const Size &size) { return in_rows("jagged ponds", size, 0.6); }

// Circles: each falls into few chains of edges that run one way, by which GEOS searches, so these favour GEOS.
static inline Field rounded(const Size &size) { return in_rows("round ponds", size, 1.0); }

// Winding strips side by side, each `pitch` beside the one before and `length` long, laid along an axis or slantwise to both.
class Strips {
    double pitch, cosine, sine;

  public:
    static constexpr double length = 12000000;
    Strips(int count, double slant) : pitch(length / count), cosine(cos(slant)), sine(sin(slant)) {}

    // The corner at a part of the way along strip k and at a part of the way across it. A strip winds farther than the next one's side, so their boxes overlap.
    void add(std::vector<int64_t> &numbers, int k, double along, double across) const {
        double lengthwise = along * length, crosswise = (k + across + 0.3 * sin(4 * M_PI * along)) * pitch;
        numbers.push_back(MIDDLE.x + llround(lengthwise * cosine - crosswise * sine));
        numbers.push_back(MIDDLE.y + llround(lengthwise * sine + crosswise * cosine));
    }

    // The outline of strip k: up one side and down the other.
    void outline(std::vector<int64_t> &numbers, int k, int corners, double low, double high, double inset) const {
        int up = corners / 2, down = corners - up;
        for (int i = 0; i < up; i++) add(numbers, k, low + (high - low) * i / (up - 1), inset);
        for (int i = 0; i < down; i++) add(numbers, k, high - (high - low) * i / (down - 1), 1 - inset);
    }
};

// A border of winding teeth with a pond in each that fills it but for a narrow bank. The first and the last corner lie lower, and what is between them and the
// teeth holds these together.
static inline Field in_teeth(const char *name, const Size &size, double slant) {
    Strips strips(size.ponds, slant);
    std::vector<int64_t> border, foot;
    for (int k = 0; k < size.ponds; k++) strips.outline(border, k, size.outer / size.ponds, 0.1, 1, 0.1);
    strips.add(foot, 0, 0, 0.1);
    strips.add(foot, size.ponds - 1, 0, 0.9);
    std::copy(foot.begin(), foot.begin() + 2, border.begin());
    std::copy(foot.begin() + 2, foot.end(), border.end() - 2);
    Field made{name, {{"outer", border}}};
    for (int k = 0; k < size.ponds; k++) {
        std::vector<int64_t> pond;
        strips.outline(pond, k, size.inner, 0.15, 0.95, 0.15);
        made.rings.push_back({"pond", pond});
    }
    return made;
}

// The boxes of a pond, of its tooth and of the next ones overlap.
static inline Field bays(const Size &size) { return in_teeth("ponds in bays", size, 0); }

// Ditches slantwise to the axes: the boxes of nearly all rings overlap, and of many runs of edges.
static inline Field ditches(const Size &size) { return in_teeth("slanting ditches", size, M_PI / 4); }

static inline Ring moved(Ring ring, int64_t x, int64_t y) {
    for (size_t k = 0; k < ring.numbers.size(); k += 2) {
        ring.numbers[k] += x;
        ring.numbers[k + 1] += y;
    }
    return ring;
}

// A place well inside a pond of any of the shapes: between two corners that face each other.
static inline Place inside_of(const Ring &pond) {
    size_t one = pond.corners() / 4, other = pond.corners() - 1 - one;
    std::vector<Place> at = corners_of(pond);
    return {(at[one].x + at[other].x) / 2, (at[one].y + at[other].y) / 2};
}

// A field that is not to be accepted, and the refusal.
struct Damaged {
    Field field;
    int refusal;
};

// The last ring is damaged each time, so that all before it were looked at.
static inline std::vector<Damaged> damaged(const Field &field) {
    const Ring &outer = field.rings[0], &first = field.rings[1], &last = field.rings.back();
    Place at = inside_of(last), within = inside_of(first);
    const Ring across = moved(last, outer.numbers[0] - at.x, outer.numbers[1] - at.y);
    const Ring outside = moved(last, 3 * RADIUS, 0);
    const Ring overlapping = moved(first, 1000, 0);
    const Ring nested{"pond", {within.x, within.y, within.x + 1000, within.y, within.x, within.y + 1000}};
    std::vector<Damaged> made;
    for (const Ring &ring : {across, outside, overlapping, nested, exchanged(last)}) {
        made.push_back({field, 15});
        made.back().field.rings.back() = ring;
    }
    made.back().refusal = 9;
    return made;
}
