// Times the inverse beside PROJ in one run: proj_trans backwards with `tmerc`, default and +approx. Answers are compared before anything is timed.
#include "lists.h"
#include "plane.h"
#include "returned.h"

struct Two {
    int64_t refused, b, l;
};

extern "C" {
void bench_inverse(Two *answer, uint8_t code, int64_t x, int64_t y);
}

// B differs from PROJ's default by up to 12 ticks, where document 001's series stops; +approx itself is up to 10 ticks from the default at 5.5 degrees.
static void compare(const System &system, const std::vector<Plane> &at, PJ *peer, const std::vector<PJ_COORD> &metres, double margin_b, double margin_l) {
    for (int k = 0; k < COUNT; k++) {
        Two answer = returned(bench_inverse, system.code, at[k].x, at[k].y);
        must(answer.refused == 0, "a point is refused");
        PJ_COORD angles = proj_trans(peer, PJ_INV, metres[k]);
        must(fabs(angles.lp.phi / TICK - answer.b) < margin_b && fabs(angles.lp.lam / TICK - answer.l) < margin_l, "a point differs from PROJ");
    }
}

static int64_t peer_inverse(PJ *peer, const PJ_COORD &metres) { return (int64_t)(proj_trans(peer, PJ_INV, metres).lp.phi * 1e9); }

static void time(const System &system, Lists &lists) {
    PJ *exact = made(system.text()), *approx = made(system.text("+approx"));
    std::vector<Plane> at = plane_of(exact, points_of(system, COUNT));
    std::vector<PJ_COORD> metres = metres_of(at);
    compare(system, at, exact, metres, 13, 2);
    compare(system, at, approx, metres, 23, 12);
    lists.time([&](long k) { return returned(bench_inverse, system.code, at[k].x, at[k].y).b; },
               [&](long k) { return peer_inverse(exact, metres[k]); },
               [&](long k) { return peer_inverse(approx, metres[k]); });
    proj_destroy(exact);
    proj_destroy(approx);
}

int main() {
    about(std::string("PROJ ") + proj_info().version);
    Lists lists;
    for (const System &system : SYSTEMS) time(system, lists);
    lists.print("inverse", "PROJ", "`+approx`");
}
