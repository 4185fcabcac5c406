// Times the field calls beside GEOS on the same polygons with holes and the same points, in one run:
//
//     accept      GEOSisValid
//     position    point in polygon without an index, which tells the border too;      prepared containment, and where that fails intersection
//
// Every call of ours checks the rings' numbers first and keeps nothing. `nozzle` is accept and then position and has no row of its own. Answers are compared
// before anything is timed, also those for damaged fields; a pond that touches the border in one point is no such field, since GEOS lets it pass.
#include "geos.h"

extern "C" {
uint8_t bench_field_accept(const uint32_t *counts, size_t rings, const int64_t *corners, size_t count);
uint8_t bench_field_position(const uint32_t *counts, size_t rings, const int64_t *corners, size_t count, int64_t px, int64_t py);
uint8_t bench_field_nozzle(const uint32_t *counts, size_t rings, const int64_t *corners, size_t count, int64_t px, int64_t py);
}

// A field as our calls take it.
struct Lent {
    std::vector<uint32_t> counts;
    std::vector<int64_t> numbers;
    explicit Lent(const Field &field) {
        for (const Ring &ring : field.rings) {
            counts.push_back((uint32_t)ring.corners());
            numbers.insert(numbers.end(), ring.numbers.begin(), ring.numbers.end());
        }
    }
    int64_t accept() const { return bench_field_accept(counts.data(), counts.size(), numbers.data(), numbers.size()); }
    int64_t position(const Place &at) const { return bench_field_position(counts.data(), counts.size(), numbers.data(), numbers.size(), at.x, at.y); }
    int64_t nozzle(const Place &at) const { return bench_field_nozzle(counts.data(), counts.size(), numbers.data(), numbers.size(), at.x, at.y); }
};

// Random places, every corner for the borders, and a place in each pond.
static std::vector<Place> asked_of(const Field &field) {
    std::vector<Place> places = places_of(field.rings[0], 512);
    for (const Ring &ring : field.rings) {
        for (const Place &corner : corners_of(ring)) places.push_back(corner);
        if (&ring != &field.rings[0]) places.push_back(inside_of(ring));
    }
    return places;
}

static void compare_places(const Field &field, const Lent &lent, const GeosField &peer) {
    std::vector<Place> places = asked_of(field);
    GeosPoints points(places);
    for (size_t k = 0; k < places.size(); k++) {
        int64_t here = lent.position(places[k]);
        must(here == peer.place(places[k]), "a point's place in a field differs from GEOS");
        must(here == peer.prepared_place(points[k]), "a point's place in a field differs from GEOS's prepared geometry");
        if (k % 64 == 0) must(here == lent.nozzle(places[k]), "a nozzle differs from the position");
    }
    for (size_t k = 1; k < field.rings.size(); k++) must(lent.position(inside_of(field.rings[k])) == SHUT, "a pond is not left dry");
}

static void compare(const Field &field, const Lent &lent, const GeosField &peer) {
    must(lent.accept() == 0 && peer.valid(), "a field is not accepted");
    compare_places(field, lent, peer);
    for (const Damaged &other : damaged(field)) {
        must(Lent(other.field).accept() == other.refusal, "a damaged field has not the refusal that it should");
        must(!GeosField(other.field).valid(), "a damaged field is valid to GEOS");
    }
}

static std::string named(const char *call, const Field &field) { return std::string(call) + ", " + field.name; }

static void accept_row(const Field &field, const Lent &lent, const GeosField &peer) {
    const long calls = std::max(4L, 10000 / (long)field.corners());
    auto times = together(
        work(calls, [&](long) { return lent.accept(); }),
        work(calls, [&](long) { return (int64_t)peer.valid(); }));
    row(named("accept", field), field.corners(), "corners", times[0], {{"GEOS", times[1]}});
}

static void position_row(const Field &field, const Lent &lent, const GeosField &peer) {
    const long count = 512, calls = std::max(count, (long)(1000000 / field.corners() / count * count));
    std::vector<Place> at = places_of(field.rings[0], count);
    GeosPoints points(at);
    auto times = together(
        work(calls, [&](long k) { return lent.position(at[k % count]); }),
        work(calls, [&](long k) { return (int64_t)peer.place(at[k % count]); }),
        work(calls, [&](long k) { return (int64_t)peer.prepared_place(points[k % count]); }));
    row(named("position in a field", field), field.corners(), "corners", times[0], {{"GEOS", times[1]}, {"prepared", times[2]}});
}

static void time_field(const Field &field) {
    Lent lent(field);
    GeosField peer(field);
    compare(field, lent, peer);
    accept_row(field, lent, peer);
    position_row(field, lent, peer);
}

int main() {
    initGEOS(nullptr, nullptr);
    std::string version = GEOSversion();
    about("GEOS " + version.substr(0, version.find('-')));
    const Size orchard{16, 2, 5}, large{256, 4, 32}, largest{1024, 16, 128};
    for (auto shape : {jagged, rounded})
        for (const Size &size : {orchard, large, largest}) time_field(shape(size));
    // A strip of an orchard's few corners could not wind.
    for (auto shape : {bays, ditches})
        for (const Size &size : {large, largest}) time_field(shape(size));
    finishGEOS();
}
