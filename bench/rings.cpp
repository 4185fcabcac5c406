// Times the ring calls beside GEOS on the same rings and points, in one run:
//
//     turning number    point in ring without an index;                   prepared containment
//     position          the same, which tells the border too;             prepared containment, and where that fails intersection
//     crossing          GEOSisValid;                                      GEOSisValid of a polygon that is prepared
//     nozzle            GEOSisValid, then point in ring;                  as position: validity was tested once, before
//
// Every call of ours checks the ring's numbers first and keeps nothing; `nozzle` tests the crossing anew at each call. Answers are compared before anything is
// timed.
#include "geos.h"

extern "C" {
int64_t bench_turning(const int64_t *corners, size_t count, int64_t px, int64_t py);
uint64_t bench_crossing(const int64_t *corners, size_t count);
uint8_t bench_position(const int64_t *corners, size_t count, int64_t px, int64_t py);
uint8_t bench_nozzle(const int64_t *corners, size_t count, int64_t px, int64_t py);
}

static int64_t turning(const Ring &ring, const Place &at) { return bench_turning(ring.numbers.data(), ring.numbers.size(), at.x, at.y); }
static int64_t position(const Ring &ring, const Place &at) { return bench_position(ring.numbers.data(), ring.numbers.size(), at.x, at.y); }
static int64_t nozzle(const Ring &ring, const Place &at) { return bench_nozzle(ring.numbers.data(), ring.numbers.size(), at.x, at.y); }
static int64_t crossing(const Ring &ring) { return (int64_t)bench_crossing(ring.numbers.data(), ring.numbers.size()); }

// Random places, and every corner for the border.
static void compare_places(const Ring &ring, const GeosRing &peer) {
    std::vector<Place> places = places_of(ring, 512);
    for (const Place &corner : corners_of(ring)) places.push_back(corner);
    GeosPoints points(places);
    for (size_t k = 0; k < places.size(); k++) {
        int64_t here = position(ring, places[k]);
        must(here == peer.place(places[k]), "a point's place differs from GEOS");
        must(here == peer.prepared_place(points[k]), "a point's place differs from GEOS's prepared geometry");
        must(here == BORDER || (turning(ring, places[k]) != 0) == (here == OPEN), "a turning number differs from GEOS");
    }
    for (size_t k = 0; k < places.size(); k += 64) must(nozzle(ring, places[k]) == peer.nozzle(places[k]), "a nozzle differs from GEOS");
}

static void compare(const Ring &ring, const GeosRing &peer) {
    const int64_t corners = (int64_t)ring.corners();
    must(crossing(ring) == corners * (corners - 1) / 2 && peer.valid() && peer.prepared_valid(), "a ring is not clean, or not all of its pairs were looked at");
    compare_places(ring, peer);
    Ring other = exchanged(ring);
    GeosRing other_peer(other);
    must((crossing(other) != 0) == other_peer.valid(), "a crossing differs from GEOS");
    for (const Place &at : places_of(other, 4)) must(nozzle(other, at) == other_peer.nozzle(at), "a crossed ring's nozzle differs from GEOS");
}

static std::string named(const char *call, const Ring &ring) { return std::string(call) + ", " + ring.name; }

// The calls that read the ring once.
static void point_rows(const Ring &ring, const GeosRing &peer) {
    const long count = 512, calls = std::max(count, (long)(1000000 / ring.corners() / count * count));
    std::vector<Place> at = places_of(ring, count);
    GeosPoints points(at);
    auto times = together(
        work(calls, [&](long k) { return turning(ring, at[k % count]); }),
        work(calls, [&](long k) { return position(ring, at[k % count]); }),
        work(calls, [&](long k) { return (int64_t)peer.place(at[k % count]); }),
        work(calls, [&](long k) { return (int64_t)peer.prepared_inside(points[k % count]); }),
        work(calls, [&](long k) { return (int64_t)peer.prepared_place(points[k % count]); }));
    row(named("turning number", ring), ring.corners(), "corners", times[0], {{"GEOS", times[2]}, {"prepared", times[3]}});
    row(named("position", ring), ring.corners(), "corners", times[1], {{"GEOS", times[2]}, {"prepared", times[4]}});
}

static long our_rounds(const Ring &ring) { return std::max(1L, 30000 / (long)(ring.corners() * ring.corners())); }
static long peer_rounds(const Ring &ring) { return std::max(1L, 500 / (long)ring.corners()); }

static void crossing_row(const Ring &ring, const GeosRing &peer) {
    auto times = together(
        work(16 * our_rounds(ring), [&](long) { return crossing(ring); }),
        work(16 * peer_rounds(ring), [&](long) { return (int64_t)peer.valid(); }),
        work(16 * peer_rounds(ring), [&](long) { return (int64_t)peer.prepared_valid(); }));
    row(named("crossing", ring), ring.corners(), "corners", times[0], {{"GEOS", times[1]}, {"prepared", times[2]}});
    pairs(named("crossing", ring), ring.corners(), crossing(ring));
}

// Fewer places serve than for `position`, since a call is long; each work that takes a place goes round all of them.
static void nozzle_row(const Ring &ring, const GeosRing &peer) {
    const long count = 64;
    std::vector<Place> at = places_of(ring, count);
    GeosPoints points(at);
    auto times = together(
        work(count * our_rounds(ring), [&](long k) { return nozzle(ring, at[k % count]); }),
        work(count * peer_rounds(ring), [&](long k) { return (int64_t)peer.nozzle(at[k % count]); }),
        work(16 * count, [&](long k) { return (int64_t)peer.prepared_place(points[k % count]); }));
    row(named("nozzle", ring), ring.corners(), "corners", times[0], {{"GEOS", times[1]}, {"prepared", times[2]}});
}

int main() {
    initGEOS(nullptr, nullptr);
    std::string version = GEOSversion();
    about("GEOS " + version.substr(0, version.find('-')));
    for (auto shape : {field, comb})
        for (int corners : {6, 16, 32, 64, 128, 256, 512, 1024}) {
            Ring ring = shape(corners);
            GeosRing peer(ring);
            compare(ring, peer);
            crossing_row(ring, peer);
            if (corners == 32 || corners == 128 || corners == 512) continue;
            point_rows(ring, peer);
            nozzle_row(ring, peer);
        }
    finishGEOS();
}
