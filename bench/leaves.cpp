// Times each leaf of the fixed-point arithmetic beside the C prototype's formula for it, in one run, both through a call: beside the prototype as it is, whose
// products are by halves of 30 bits, and beside the same with 128-bit products. Answers are compared before anything is timed: exactly where the formula is the
// same, else within the units of 2^-60 (or of the answer) said in the leaf's row. `print` prints arguments and answers instead, one call to a line, for
// reference/worked_against_code.py.
#include "leaves_prototype.h"

#include <cstring>
#include <tuple>

#include "report.h"
#include "timing.h"

extern "C" {
u64 leaf_mul60(u64, u64);
u64 leaf_quot60(u64, u64);
Two leaf_tilt60(u64, u64);
Two leaf_latitude60(u64);
Two leaf_longitude60(u64);
u64 leaf_k60(bool, u64);
Two leaf_halves60(u64, u64);
Sphere leaf_sphere60(bool, u64, u64);
u64 leaf_across60(Sphere);
u64 leaf_east30(u64, u64);
i64 leaf_north30(u64, u64, Sphere);
Plane leaf_mercator60(bool, u64, u64);
u64 leaf_scale_root60(u64);
u64 leaf_sphere_scale60(u64, u64, Sphere, u64);
u64 leaf_length60(u64, u64);
u64 leaf_turn60(Sphere);
i64 leaf_convergence60(u64, bool, u64);
u64 leaf_angle60(bool, u64);
u64 leaf_difference60(u64, u64);
u64 leaf_closer60(u64, u64);
u64 leaf_inverse_root60(u64);
u64 leaf_inverse_sphere60(u64, u64);
u64 leaf_inverse_latitude60(bool, u64);
u64 leaf_nearest_even(u64, u64);
u64 leaf_ticks60(u64);
Two leaf_inverse60(bool, u64, u64);
u64 leaf_scale_units(u64, u64);
u64 leaf_angle_units(u64);
i64 leaf_convergence_units(i64);
struct Four {
    i64 refused, x, y, scale, convergence;
};
Four leaf_forward(uint8_t, i64, i64);
struct Place {
    i64 refused, b, l;
};
Place leaf_inverse(uint8_t, i64, i64);
}

typedef Prototype<Halves> Plain;
typedef Prototype<Wide> Broad;

// So few points that they stay in the first cache, and so many turns that the clock is lost among them.
static const int COUNT = 128, TURNS = 256;

// ---- answers as whole numbers, to be compared, summed and printed
static std::vector<i64> parts(u64 a) { return {(i64)a}; }
static std::vector<i64> parts(i64 a) { return {a}; }
static std::vector<i64> parts(bool a) { return {a}; }
static std::vector<i64> parts(uint8_t a) { return {a}; }
static std::vector<i64> parts(Two a) { return {(i64)a.first, (i64)a.second}; }
static std::vector<i64> parts(Plane a) { return {a.north, (i64)a.east}; }
static std::vector<i64> parts(Four a) { return {a.refused, a.x, a.y, a.scale, a.convergence}; }
static std::vector<i64> parts(Place a) { return {a.refused, a.b, a.l}; }
static std::vector<i64> parts(const Sphere &a) { return {(i64)a.t, (i64)a.c, (i64)a.sd, (i64)a.cd, (i64)a.k, (i64)a.n2, (i64)a.d2, (i64)a.kc}; }

static i64 sum(u64 a) { return (i64)a; }
static i64 sum(i64 a) { return a; }
static i64 sum(Two a) { return (i64)(a.first + a.second); }
static i64 sum(Plane a) { return a.north + (i64)a.east; }
static i64 sum(const Sphere &a) { return (i64)(a.t + a.c + a.sd + a.cd + a.k + a.n2 + a.d2 + a.kc); }

// ---- arguments: points of either ellipsoid and what the leaves make of them
struct Point {
    bool krasovsky;
    u64 n, d, square, ratio, radius, centre, shortened, across, turn, first, slope, rho, scale, m0;
    i64 convergence;
    Sphere sphere;
    u64 a, b, quotient;
    u64 x, y, p, q, sine, cosh, number, seed, root, f, latitude;
};

static u64 below(Random &random, u64 limit) { return (u64)((double)limit * random.unit()); }

static void forward_part(Point &at, Random &random) {
    at.n = random.between(172800000000, 201600000000), at.d = random.between(0, 19800000000);
    at.square = E_SQUARE[at.krasovsky], at.ratio = RATIO[at.krasovsky];
    at.radius = RADIUS[at.krasovsky], at.centre = CENTRE[at.krasovsky];
    at.sphere = leaf_sphere60(at.krasovsky, at.n, at.d);
    at.shortened = Plain::mul60(at.square, Plain::mul60(at.sphere.t, at.sphere.t));
    at.across = leaf_across60(at.sphere), at.turn = leaf_turn60(at.sphere);
    at.first = (u64)(0.99937 * ONE) + below(random, (u64)(0.00046 * ONE)), at.slope = below(random, (u64)(0.00021 * ONE));
    at.rho = at.slope >> 17;
    at.scale = Plain::mul60(leaf_sphere_scale60(at.square, at.ratio, at.sphere, at.across), leaf_length60(at.first, at.slope));
    at.m0 = at.krasovsky ? 1000000000 : 999300000;
    at.convergence = (at.n % 2 ? 1 : -1) * leaf_convergence60(at.turn, at.d % 2, at.slope);
}

static void inverse_part(Point &at, Random &random) {
    at.x = (5294643ULL << 30) + below(random, 950429ULL << 30), at.y = below(random, 420269ULL << 30);
    at.p = leaf_angle60(at.krasovsky, at.x), at.q = leaf_angle60(at.krasovsky, at.y);
    u64 square = Plain::mul60(at.q, at.q);
    at.sine = Plain::sine_of(at.p, Plain::mul60(at.p, at.p)), at.cosh = Plain::cosh_of(square);
    at.number = Plain::mul60(at.cosh - at.sine, at.cosh + at.sine);
    at.root = leaf_inverse_root60(at.number), at.seed = at.root + at.root / 6000;
    at.f = leaf_inverse_sphere60(at.sine, at.cosh), at.latitude = leaf_inverse_latitude60(at.krasovsky, at.f);
}

static std::vector<Point> points(int count) {
    Random random(60);
    std::vector<Point> made(count);
    for (int k = 0; k < count; k++) {
        Point &at = made[k];
        at.krasovsky = k % 2;
        at.a = below(random, 2 * ONE), at.b = ONE / 2 + below(random, 3 * ONE / 2), at.quotient = below(random, at.b);
        forward_part(at, random);
        inverse_part(at, random);
    }
    return made;
}

// ---- a leaf: named, said, and judged
static std::vector<Point> at;
static bool printing;

template <class... Words>
static void print_numbers(const Words &...words) {
    (
        [&] {
            for (i64 part : parts(words)) printf(" %lld", (long long)part);
        }(),
        ...);
}

template <class Ours, class... Words>
static void print_call(const char *name, Ours ours, const Words &...words) {
    printf("%s", name), print_numbers(words...), printf(" ="), print_numbers(ours(words...)), printf("\n");
}

template <class Ours, class Arguments>
static void print_leaf(const char *name, Ours ours, Arguments arguments) {
    for (const Point &point : at) std::apply([=](const auto &...words) { print_call(name, ours, words...); }, arguments(point));
}

template <class Answer>
static void compare(const char *name, i64 tolerance, const Answer &ours, const Answer &peer) {
    std::vector<i64> one = parts(ours), other = parts(peer);
    for (size_t k = 0; k < one.size(); k++) {
        i64 gap = one[k] - other[k];
        if (gap > tolerance || -gap > tolerance) {
            fprintf(stderr, "bench: %s differs from the prototype by %lld, more than %lld\n", name, (long long)gap, (long long)tolerance);
            exit(1);
        }
    }
}

template <class Function, class Arguments>
static auto timed(Function function, Arguments arguments) {
    return work((long)TURNS * COUNT, [=](long k) { return sum(std::apply(function, arguments(at[k % COUNT]))); });
}

// `theirs` are the arguments of the prototype's leaf, where it takes others than ours.
template <class Ours, class Peer, class Arguments, class Theirs>
static void leaf(const char *name, const char *words, i64 tolerance, Ours ours, Peer plain, Peer broad, Arguments arguments, Theirs theirs) {
    if (printing) return print_leaf(name, ours, arguments);
    for (const Point &point : at) {
        compare(name, tolerance, std::apply(ours, arguments(point)), std::apply(plain, theirs(point)));
        compare(name, tolerance, std::apply(ours, arguments(point)), std::apply(broad, theirs(point)));
    }
    auto times = together(timed(ours, arguments), timed(plain, theirs), timed(broad, theirs));
    row(std::string("leaf, ") + words, 1, "calls", times[0], {{"C", times[1]}, {"C of 128 bits", times[2]}});
}

#define WITH(...) [](const Point &p) { return std::tie(__VA_ARGS__); }
#define LEAF_ROW(name, words, tolerance, arguments) leaf(#name, words, tolerance, leaf_##name, Plain::name, Broad::name, arguments, arguments)
#define LEAF_OTHER(name, words, tolerance, arguments, theirs) leaf(#name, words, tolerance, leaf_##name, Plain::name, Broad::name, arguments, theirs)

static void forward_leaves() {
    LEAF_ROW(mul60, "product", 2, WITH(p.a, p.b));
    LEAF_ROW(quot60, "quotient", 0, WITH(p.quotient, p.b));
    LEAF_ROW(latitude60, "sine and cosine of the latitude", 200, WITH(p.n));
    LEAF_ROW(longitude60, "sine and cosine of the longitude", 4000, WITH(p.d));
    // Ours works K from the latitude; the prototype needs the sine for it, so its time has the sine's in it.
    LEAF_OTHER(k60, "K of the latitude (in C with the sine)", 5000, WITH(p.krasovsky, p.n), WITH(p.square, p.n));
    LEAF_ROW(halves60, "numerator and denominator of sin f", 3, WITH(p.sphere.k, p.sphere.t));
    LEAF_OTHER(sphere60, "sines, cosines, K and the parts of sin f, together", 10000, WITH(p.krasovsky, p.n, p.d), WITH(p.square, p.n, p.d));
    LEAF_ROW(across60, "cos f sin d", 3, WITH(p.sphere));
    LEAF_ROW(east30, "Mercator's y", 400, WITH(p.radius, p.across));
    LEAF_ROW(tilt60, "tangent of the difference from 52 degrees", 6, WITH(p.sphere.n2, p.sphere.kc));
    LEAF_ROW(north30, "Mercator's x", 300, WITH(p.centre, p.radius, p.sphere));
    LEAF_ROW(mercator60, "Mercator's pair of a point, whole", 700, WITH(p.krasovsky, p.n, p.d));
    LEAF_ROW(scale_root60, "root of 1 - x", 400000, WITH(p.shortened));
    LEAF_ROW(sphere_scale60, "scale without the derivative", 1200000, WITH(p.square, p.ratio, p.sphere, p.across));
    LEAF_OTHER(length60, "derivative's length", 100, WITH(p.first, p.slope), WITH(p.first, p.rho));
    LEAF_ROW(turn60, "arc tangent of sin f tan d", 50000, WITH(p.sphere));
    LEAF_OTHER(convergence60, "convergence", 200000, WITH(p.turn, p.krasovsky, p.slope), WITH(p.turn, p.krasovsky, p.rho));
    LEAF_ROW(scale_units, "scale times m0 to units of the answer", 0, WITH(p.scale, p.m0));
    LEAF_ROW(angle_units, "angle to units of the answer", 1, WITH(p.turn));
    LEAF_ROW(convergence_units, "convergence to units of the answer", 1, WITH(p.convergence));
}

static void inverse_leaves() {
    LEAF_ROW(angle60, "length over R0", 2, WITH(p.krasovsky, p.x));
    LEAF_ROW(difference60, "difference of longitude", 3000, WITH(p.p, p.q));
    LEAF_ROW(closer60, "step of Heron", 0, WITH(p.number, p.seed));
    LEAF_ROW(inverse_root60, "root", 9, WITH(p.number));
    LEAF_ROW(inverse_sphere60, "the sphere's latitude f", 50000, WITH(p.sine, p.cosh));
    LEAF_ROW(inverse_latitude60, "latitude after c2, c4, c6", 30000, WITH(p.krasovsky, p.f));
    LEAF_ROW(nearest_even, "quotient to the nearest, ties to even", 0, WITH(p.a, p.radius));
    LEAF_ROW(ticks60, "angle to ticks", 1, WITH(p.latitude));
    LEAF_ROW(inverse60, "B and L - L0 of Mercator's pair, whole", 1, WITH(p.krasovsky, p.x, p.y));
}

// The first and the last tick of each band.
static void print_bands() {
    const u64 width = 900000001, north = 172800000000, widest = 19800000000, highest = 201600000000;
    for (u64 k = 0; k < 64; k++) {
        u64 ticks = k / 2 * width + k % 2 * (width - 1), n = std::min(north + ticks, highest);
        print_call("latitude60", leaf_latitude60, n);
        print_call("longitude60", leaf_longitude60, std::min(ticks, widest));
        print_call("k60", leaf_k60, false, n);
        print_call("k60", leaf_k60, true, n);
    }
}

// Points of each system, there and back.
static void print_answers() {
    static const i64 meridians[] = {0, 68400000000, 54000000000, 64800000000, 75600000000, 86400000000, 54000000000, 75600000000, 54000000000, 75600000000,
                                    54000000000, 64800000000, 75600000000, 86400000000, 68250000000};
    static const i64 widths[] = {0, 19800000000, 5400000000, 5400000000, 5400000000, 5400000000, 10800000000, 10800000000, 10800000000, 10800000000,
                                 5400000000, 5400000000, 5400000000, 5400000000, 7200000000};
    Random random(14);
    for (int k = 0; k < 14 * 300; k++) {
        uint8_t code = (uint8_t)(1 + k % 14);
        i64 b = random.between(172800000000, 201600000000), l = meridians[code] + random.between(-widths[code], widths[code]);
        Four there = leaf_forward(code, b, l);
        print_call("forward", leaf_forward, code, b, l);
        print_call("inverse", leaf_inverse, code, there.x, there.y);
    }
}

int main(int count, char **words) {
    printing = count > 1 && strcmp(words[1], "print") == 0;
    at = points(printing ? 2000 : COUNT);
    forward_leaves();
    inverse_leaves();
    if (printing) {
        print_bands();
        print_answers();
    }
}
