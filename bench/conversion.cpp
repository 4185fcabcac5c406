// Times plane to plane and the conversion of a ring beside PROJ in one run: a pipeline of two steps, both default or both +approx. Answers are compared with both
// before anything is timed.
#include "lists.h"
#include "plane.h"
#include "returned.h"

struct Two {
    int64_t refused, x, y;
};

extern "C" {
void bench_plane(Two *answer, uint8_t from, uint8_t to, int64_t x, int64_t y);
uint8_t bench_ring(uint8_t from, uint8_t to, const int64_t *corners, size_t count, int64_t *output, size_t room);
}

struct Pair {
    System from, to;
    PJ *peer(const char *more = "") const { return made("+proj=pipeline +step +inv " + from.text(more) + " +step " + to.text(more)); }
};

static const Pair PAIRS[] = {{SYSTEMS[1], SYSTEMS[0]}, {SYSTEMS[0], SYSTEMS[2]}, {SYSTEMS[4], SYSTEMS[3]}};

// Two legs, the ticks within 0.6 of the procedure and the plane point within 0.51 mm.
static bool agrees(const PJ_COORD &plane, int64_t x, int64_t y) { return fabs(plane.xy.y * 1000 - x) < 1.5 && fabs(plane.xy.x * 1000 - y) < 1.5; }

static int64_t peer_plane(PJ *peer, const PJ_COORD &metres) { return (int64_t)proj_trans(peer, PJ_FWD, metres).xy.x; }

// Points of the zone that both systems have.
static std::vector<Plane> points_of(const Pair &pair) {
    PJ *source = made(pair.from.text());
    std::vector<Plane> found;
    for (const Plane &point : plane_of(source, points_of(pair.from, 4 * COUNT)))
        if (returned(bench_plane, pair.from.code, pair.to.code, point.x, point.y).refused == 0 && found.size() < COUNT) found.push_back(point);
    must(found.size() == COUNT, "two systems have too few points in common");
    proj_destroy(source);
    return found;
}

static void time_plane(const Pair &pair, Lists &lists) {
    std::vector<Plane> at = points_of(pair);
    std::vector<PJ_COORD> metres = metres_of(at);
    PJ *exact = pair.peer(), *approx = pair.peer("+approx");
    for (PJ *peer : {exact, approx})
        for (int k = 0; k < COUNT; k++) {
            Two answer = returned(bench_plane, pair.from.code, pair.to.code, at[k].x, at[k].y);
            must(agrees(proj_trans(peer, PJ_FWD, metres[k]), answer.x, answer.y), "a point differs from PROJ");
        }
    lists.time([&](long k) { return returned(bench_plane, pair.from.code, pair.to.code, at[k].x, at[k].y).x; },
               [&](long k) { return peer_plane(exact, metres[k]); },
               [&](long k) { return peer_plane(approx, metres[k]); });
    proj_destroy(exact);
    proj_destroy(approx);
}

// Corners on a circle of nine kilometres where the two zones meet.
static std::vector<Plane> circle(const Pair &pair, int corners) {
    PJ *source = made(pair.from.text());
    PJ_COORD middle = proj_trans(source, PJ_FWD, proj_coord((pair.from.meridian + pair.to.meridian) / 2 * M_PI / 180, 52 * M_PI / 180, 0, 0));
    proj_destroy(source);
    std::vector<Plane> found;
    for (int k = 0; k < corners; k++) {
        double angle = 2 * M_PI * k / corners;
        found.push_back({llround(middle.xy.y * 1000 + 9e6 * cos(angle)), llround(middle.xy.x * 1000 + 9e6 * sin(angle))});
    }
    return found;
}

// PROJ's way with a ring: corner by corner into another list. (Its call for a whole array does the same inside.)
static int64_t peer_ring(PJ *peer, const std::vector<PJ_COORD> &metres, std::vector<PJ_COORD> &output) {
    for (size_t k = 0; k < metres.size(); k++) output[k] = proj_trans(peer, PJ_FWD, metres[k]);
    return (int64_t)output[0].xy.x;
}

// Nanoseconds for a ring: ours, PROJ's default, its +approx.
static std::vector<double> time_ring(const Pair &pair, int corners) {
    std::vector<Plane> at = circle(pair, corners);
    std::vector<int64_t> numbers, output(2 * corners);
    for (const Plane &corner : at) numbers.push_back(corner.x), numbers.push_back(corner.y);
    std::vector<PJ_COORD> metres = metres_of(at), found(corners);
    auto ours = [&] { return bench_ring(pair.from.code, pair.to.code, numbers.data(), numbers.size(), output.data(), output.size()); };
    must(ours() == 0, "a ring is refused");
    PJ *exact = pair.peer(), *approx = pair.peer("+approx");
    for (PJ *peer : {exact, approx}) {
        peer_ring(peer, metres, found);
        for (int k = 0; k < corners; k++) must(agrees(found[k], output[2 * k], output[2 * k + 1]), "a ring's corner differs from PROJ");
    }
    const long calls = COUNT / corners;
    auto times = together(
        work(calls, [&](long) { return ours() + output[0]; }),
        work(calls, [&](long) { return peer_ring(exact, metres, found); }),
        work(calls, [&](long) { return peer_ring(approx, metres, found); }));
    proj_destroy(exact);
    proj_destroy(approx);
    return times;
}

static void ring_row(int corners) {
    double sums[3] = {}, many = std::size(PAIRS);
    for (const Pair &pair : PAIRS) {
        std::vector<double> times = time_ring(pair, corners);
        for (int place = 0; place < 3; place++) sums[place] += times[place];
    }
    row("conversion of a ring", corners, "corners", sums[0] / many, {{"PROJ", sums[1] / many}, {"`+approx`", sums[2] / many}});
}

int main() {
    about(std::string("PROJ ") + proj_info().version);
    Lists lists;
    for (const Pair &pair : PAIRS) time_plane(pair, lists);
    lists.print("plane to plane", "PROJ", "`+approx`");
    for (int corners : {4, 16, 64, 256, 1024}) ring_row(corners);
}
