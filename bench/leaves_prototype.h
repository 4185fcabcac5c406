// The C prototype of the fixed-point arithmetic, leaf by leaf: its formulas as they were before there was a proof, for bench/leaves.cpp to time ours beside.
// Numbers are at scale 2^60; the tails of the series, where the factor before them is small, are at shorter scales, with one product of 64 bits a step. The
// template's parameter is the full product: by halves of 30 bits, as the prototype has it and as our code has it, or of 128 bits, a type that our language has
// not. The quotient is the prototype's two divisions of 64 bits with either.
#pragma once
#include <cstdint>

typedef uint64_t u64;
typedef int64_t i64;

// A leaf is called, as ours is, and not laid into the loop that times it.
#define LEAF __attribute__((noinline)) static

struct Two {
    u64 first, second;
};

struct Sphere {
    u64 t, c, sd, cd, k, n2, d2, kc;
};

struct Plane {
    i64 north;
    u64 east;
};

static const u64 ONE = 1ULL << 60, HALF = 1ULL << 30;

// ---- constants: of both ellipsoids, GRS-80 first
static const u64 TICK = 1536435884643401761, TICKS = 865137301901421231, THOUSANDTHS = 885900597147055340, AT_52 = 1046358366166695522,
                 TAN_52 = 1475672232396987915;
static const u64 E_SQUARE[2] = {7718094688409816, 7716989728512023};
static const u64 RATIO[2] = {1150989552223460208, 1150989829159782655}, RADIUS[2] = {6836996460007395, 6837113874861261};
static const u64 CENTRE[2] = {20308250824945, 20414813166061}, OVER_RADIUS[2] = {759441209148909116, 759428167143141240};
static const u64 SEED_FROM = 351641058905088327, SEED[3] = {636829586550925950, 257767101720653886, 38447625945040674};

// 1/(2k+1)!, 1/(2k)!, 1/k!, 1/(2k+1), and the coefficients of a root and of its reciprocal
static constexpr u64 SINE[9] = {
    1152921504606846976, 192153584101141163, 9607679205057058, 228754266787073, 3177142594265, 28883114493, 185148170, 881658, 3241};
static constexpr u64 COSINE[9] = {
    1152921504606846976, 576460752303423488, 48038396025285291, 1601279867509510, 28594283348384, 317714259426, 2406926208, 13224869, 55104};
static constexpr u64 POWER[6] = {1152921504606846976, 1152921504606846976, 576460752303423488, 192153584101141163, 48038396025285291, 9607679205057058};
static constexpr u64 ODD[8] = {
    1152921504606846976, 384307168202282325, 230584300921369395, 164703072086692425, 128102389400760775, 104811045873349725, 88686269585142075,
    76861433640456465};
static constexpr u64 ROOT[4] = {576460752303423488, 144115188075855872, 72057594037927936, 45035996273704960};
static constexpr u64 OVER_ROOT[4] = {576460752303423488, 432345564227567616, 360287970189639680, 315251973915934720};
// (2 c2 4^k + 4 c4 16^k + 6 c6 36^k) / (2k+1)!
static constexpr u64 LATITUDE[2][13] = {
    {7770110264294487, 5241339384737898, 1097931621742114, 124042476435403, 11498614501341, 1179609086532, 129419431813, 13633648958, 1335588166,
     119053300, 9388003, 642131, 37840},
    {7768990362000604, 5240575100159774, 1097764337996884, 124020808380333, 11496015826518, 1179272368095, 129376879233, 13628698332, 1335065910,
     119004490, 9384053, 641857, 37824}};

// ---- short products: at scale 2^35, at 2^56 with a factor at 2^32, and at 2^50 with one at 2^30
static constexpr u64 to35(u64 c) { return (c + (1ULL << 24)) >> 25; }
static inline u64 short35(u64 a, u64 b) { return a * b >> 35; }
static inline u64 short32(u64 a, u64 b) { return a * b >> 32; }
static inline u64 short30(u64 a, u64 b) { return a * b >> 30; }
// a below 2^54 at scale 2^60 by j at scale 2^35
static inline u64 mixed(u64 a, u64 j) { return ((a >> 29) * j + ((a & ((1ULL << 29) - 1)) * j >> 29)) >> 6; }

static inline u64 nearest(u64 n, u64 d) {
    u64 q = n / d, r = n % d;
    return (2 * r > d || (2 * r == d && q % 2 == 1)) ? q + 1 : q;
}

struct Halves {
    static inline u64 product(u64 a, u64 b) {
        u64 ah = a / HALF, al = a % HALF, bh = b / HALF, bl = b % HALF;
        return ah * bh + (ah * bl + al * bh) / HALF;
    }
};

struct Wide {
    static inline u64 product(u64 a, u64 b) { return (u64)((unsigned __int128)a * b >> 60); }
};

template <class Full>
struct Prototype {
    static inline u64 times(u64 a, u64 b) { return Full::product(a, b); }

    static inline u64 over(u64 a, u64 b) {
        u64 bh = b / HALF, bl = b % HALF, c = bh + 1, q = a / c, r = (a - q * bh) * HALF - q * bl;
        return q * HALF + r / c;
    }

    static inline u64 angle_of(u64 ticks) { return times(ticks << 22, TICK); }

    // Sine of an angle up to 0.99 and its square q: the terms from 1/9! on at scale 2^56.
    static inline u64 sine_of(u64 x, u64 q) {
        u64 h = q >> 28, v = (SINE[7] >> 4) - short32(h, SINE[8] >> 4);
        v = (SINE[6] >> 4) - short32(h, v);
        v = (SINE[5] >> 4) - short32(h, v);
        v = ((SINE[4] >> 4) - short32(h, v)) << 4;
        v = SINE[3] - times(q, v);
        v = SINE[2] - times(q, v);
        v = SINE[1] - times(q, v);
        return times(x, ONE - times(q, v));
    }

    static inline u64 cosine_of(u64 q) {
        u64 h = q >> 28, w = (COSINE[7] >> 4) - short32(h, COSINE[8] >> 4);
        w = (COSINE[6] >> 4) - short32(h, w);
        w = ((COSINE[5] >> 4) - short32(h, w)) << 4;
        w = COSINE[4] - times(q, w);
        w = COSINE[3] - times(q, w);
        w = COSINE[2] - times(q, w);
        w = COSINE[1] - times(q, w);
        return ONE - times(q, w);
    }

    static inline Two turns_of(u64 x) {
        u64 q = times(x, x);
        return {sine_of(x, q), cosine_of(q)};
    }

    // Of an angle up to 0.097.
    static inline Two small_turns_of(u64 x) {
        u64 q = times(x, x), h = q >> 25;
        u64 s = to35(SINE[2]) - short35(h, to35(SINE[3]));
        u64 c = to35(COSINE[2]) - short35(h, to35(COSINE[3]) - short35(h, to35(COSINE[4])));
        return {x - times(x, times(q, SINE[1] - mixed(q, s))), ONE - times(q, COSINE[1] - mixed(q, c))};
    }

    // Arc tangent up to 0.08, to power 11.
    static inline u64 arctan_of(u64 x) {
        u64 q = times(x, x), h = q >> 25, j = to35(ODD[4]) - short35(h, to35(ODD[5]));
        for (int k = 3; k > 0; k--) j = to35(ODD[k]) - short35(h, j);
        return x - times(x, mixed(q, j));
    }

    // Arc tangent up to 0.119, to power 15.
    static inline u64 wide_arctan_of(u64 x) {
        u64 q = times(x, x), h = q >> 25, j = to35(ODD[6]) - short35(h, to35(ODD[7]));
        for (int k = 5; k > 1; k--) j = to35(ODD[k]) - short35(h, j);
        return x - times(x, times(q, ODD[1] - mixed(q, j)));
    }

    // x·(1 + q/3 + ..) to power 9, of a number up to 0.065.
    static inline u64 artanh_of(u64 x, u64 q) {
        u64 h = q >> 25, j = to35(ODD[3]) + short35(h, to35(ODD[4]));
        j = to35(ODD[2]) + short35(h, j);
        j = to35(ODD[1]) + short35(h, j);
        return x + times(x, mixed(q, j));
    }

    static inline u64 root_of(u64 x) {
        u64 h = x >> 25, j = to35(ROOT[2]) + short35(h, to35(ROOT[3]));
        j = to35(ROOT[1]) + short35(h, j);
        j = to35(ROOT[0]) + short35(h, j);
        return ONE - mixed(x, j);
    }

    static inline u64 over_root_of(u64 x) {
        u64 h = x >> 25, j = to35(OVER_ROOT[2]) + short35(h, to35(OVER_ROOT[3]));
        j = to35(OVER_ROOT[1]) + short35(h, j);
        j = to35(OVER_ROOT[0]) + short35(h, j);
        return ONE + mixed(x, j);
    }

    static inline Two tilt_of(u64 n, u64 m) {
        u64 level = times(TAN_52, m), under = m + times(TAN_52, n);
        bool south = n < level;
        return {south, over(south ? level - n : n - level, under)};
    }

    static inline u64 closer_of(u64 w, u64 s) { return (s + over(w, s)) / 2; }

    static inline u64 seeded_root_of(u64 w) {
        u64 v = 4 * (w - SEED_FROM);
        return closer_of(w, closer_of(w, SEED[0] + times(v, SEED[1] - times(v, SEED[2]))));
    }

    // ---- the leaves
    LEAF u64 mul60(u64 a, u64 b) { return times(a, b); }
    LEAF u64 quot60(u64 a, u64 b) { return over(a, b); }
    LEAF Two tilt60(u64 n, u64 m) { return tilt_of(n, m); }
    LEAF Two latitude60(u64 n) { return turns_of(angle_of(n)); }
    LEAF Two longitude60(u64 d) { return small_turns_of(angle_of(d)); }

    // From the latitude's sine.
    static inline u64 K_of(u64 square, u64 t) {
        u64 g = times(square, t), w = artanh_of(g, times(g, t)), h = w >> 25;
        u64 j = to35(POWER[4]) - short35(h, to35(POWER[5]));
        j = to35(POWER[3]) - short35(h, j);
        j = to35(POWER[2]) - short35(h, j);
        return ONE - w + mixed(times(w, w), j);
    }

    // From the latitude itself, as ours: the sine is a part of it, and the cosine is not.
    LEAF u64 k60(u64 square, u64 n) {
        u64 x = angle_of(n);
        return K_of(square, sine_of(x, times(x, x)));
    }

    static inline Two halves_of(u64 k, u64 t) {
        u64 p = times(times(k, k), ONE + t), q = ONE - t;
        return {(p - q) / 2, (p + q) / 2};
    }

    LEAF Two halves60(u64 k, u64 t) { return halves_of(k, t); }

    static inline Sphere sphere_of(u64 square, u64 n, u64 d) {
        Two b = turns_of(angle_of(n)), a = small_turns_of(angle_of(d));
        u64 k = K_of(square, b.first);
        Two h = halves_of(k, b.first);
        return {b.first, b.second, a.first, a.second, k, h.first, h.second, times(k, b.second)};
    }

    LEAF Sphere sphere60(u64 square, u64 n, u64 d) { return sphere_of(square, n, d); }

    static inline u64 east_of(u64 radius, u64 v) { return times(artanh_of(v, times(v, v)), radius); }

    static inline i64 north_of(u64 centre, u64 radius, const Sphere &s) {
        Two tilt = tilt_of(s.n2, times(s.kc, s.cd));
        i64 r = (i64)times(arctan_of(tilt.second), radius);
        return tilt.first ? (i64)centre - r : (i64)centre + r;
    }

    LEAF u64 across60(Sphere s) { return over(times(s.kc, s.sd), s.d2); }
    LEAF u64 east30(u64 radius, u64 v) { return east_of(radius, v); }
    LEAF i64 north30(u64 centre, u64 radius, Sphere s) { return north_of(centre, radius, s); }

    LEAF Plane mercator60(bool krasovsky, u64 n, u64 d) {
        Sphere s = sphere_of(E_SQUARE[krasovsky], n, d);
        u64 across = over(times(s.kc, s.sd), s.d2);
        return {north_of(CENTRE[krasovsky], RADIUS[krasovsky], s), east_of(RADIUS[krasovsky], across)};
    }

    // ---- scale and convergence
    LEAF u64 scale_root60(u64 x) { return root_of(x); }

    LEAF u64 sphere_scale60(u64 square, u64 ratio, Sphere s, u64 across) {
        u64 r1 = root_of(times(times(square, s.t), s.t)), r2 = over_root_of(times(across, across));
        u64 g = times(s.k, over(ONE, s.d2));
        return times(times(ratio, g), times(r1, r2));
    }

    // rho is the slope at scale 2^43.
    LEAF u64 length60(u64 first, u64 rho) { return first + times(first, rho * rho >> 27); }

    // The prototype shares 1/d2 with the scale; a leaf of its own works it out.
    LEAF u64 turn60(Sphere s) {
        u64 sine_f = times(s.n2, over(ONE, s.d2));
        return arctan_of(over(times(sine_f, s.sd), s.cd));
    }

    LEAF i64 convergence60(u64 turn, bool back, u64 rho) {
        i64 r = (i64)arctan_of(rho << 17);
        return back ? (i64)turn + r : (i64)turn - r;
    }

    // ---- inverse
    LEAF u64 angle60(bool krasovsky, u64 x) { return times(x << 8, OVER_RADIUS[krasovsky]); }

    static inline u64 sinh_of(u64 q, u64 square) {
        u64 h = square >> 25;
        return q + times(q, times(square, SINE[1] + mixed(square, to35(SINE[2]) + short35(h, to35(SINE[3])))));
    }

    static inline u64 cosh_of(u64 square) {
        u64 h = square >> 25;
        return ONE + times(square, COSINE[1] + mixed(square, to35(COSINE[2]) + short35(h, to35(COSINE[3]))));
    }

    static inline u64 difference_of(u64 cosine, u64 q, u64 square) { return wide_arctan_of(over(sinh_of(q, square), cosine)); }

    LEAF u64 difference60(u64 p, u64 q) { return difference_of(cosine_of(times(p, p)), q, times(q, q)); }
    LEAF u64 closer60(u64 w, u64 s) { return closer_of(w, s); }
    LEAF u64 inverse_root60(u64 w) { return seeded_root_of(w); }

    static inline u64 f_of(u64 s, u64 c) {
        Two tilt = tilt_of(s, seeded_root_of(times(c, c) - times(s, s)));
        u64 a = arctan_of(tilt.second);
        return tilt.first ? AT_52 - a : AT_52 + a;
    }

    LEAF u64 inverse_sphere60(u64 s, u64 c) { return f_of(s, c); }

    // The terms from the fourth on at scale 2^50.
    static inline u64 latitude_of(const u64 *g, u64 f) {
        u64 q = times(f, f), h = q >> 30, v = (g[11] >> 10) - short30(h, g[12] >> 10);
        for (int k = 10; k > 2; k--) v = (g[k] >> 10) - short30(h, v);
        v = g[2] - times(q, v << 10);
        v = g[1] - times(q, v);
        v = g[0] - times(q, v);
        return f + times(f, v);
    }

    LEAF u64 inverse_latitude60(bool krasovsky, u64 f) { return latitude_of(LATITUDE[krasovsky], f); }
    LEAF u64 nearest_even(u64 n, u64 d) { return nearest(n, d); }
    LEAF u64 ticks60(u64 b) { return nearest(times(b, TICKS), 1ULL << 22); }

    LEAF Two inverse60(bool krasovsky, u64 x, u64 y) {
        u64 p = times(x << 8, OVER_RADIUS[krasovsky]), q = times(y << 8, OVER_RADIUS[krasovsky]), square = times(q, q);
        Two turns = turns_of(p);
        u64 d = difference_of(turns.second, q, square), b = latitude_of(LATITUDE[krasovsky], f_of(turns.first, cosh_of(square)));
        return {nearest(times(b, TICKS), 1ULL << 22), nearest(times(d, TICKS), 1ULL << 22)};
    }

    // ---- units of the answers
    LEAF u64 scale_units(u64 sc, u64 m0) { return nearest((sc / HALF) * m0 + (sc % HALF) * m0 / HALF, HALF); }

    static inline u64 angle_units_of(u64 a) { return nearest(times(a, THOUSANDTHS), 1ULL << 32); }
    LEAF u64 angle_units(u64 a) { return angle_units_of(a); }
    LEAF i64 convergence_units(i64 g) { return g < 0 ? -(i64)angle_units_of((u64)-g) : (i64)angle_units_of((u64)g); }
};
