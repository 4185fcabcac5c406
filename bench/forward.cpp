// Times the forward projection beside PROJ's `tmerc`, default and +approx, in one run: X and Y alone beside proj_trans, and X, Y, scale and convergence in one call
// beside proj_trans with proj_factors. All answers are compared with both forms of the peer before anything is timed.
#include "lists.h"
#include "returned.h"
#include "systems.h"

struct Four {
    int64_t refused, x, y, scale, convergence;
};

struct Two {
    int64_t refused, x, y;
};

extern "C" {
void bench_forward(Four *answer, uint8_t code, int64_t b, int64_t l);
void bench_forward_plane(Two *answer, uint8_t code, int64_t b, int64_t l);
}

// Within 0.7 of each unit, which is our rounding and a little.
static void compare(const System &system, const std::vector<Ticks> &at, PJ *peer, const std::vector<PJ_COORD> &radians) {
    for (int k = 0; k < COUNT; k++) {
        Four answer = returned(bench_forward, system.code, at[k].b, at[k].l);
        Two alone = returned(bench_forward_plane, system.code, at[k].b, at[k].l);
        must(answer.refused == 0 && alone.refused == 0, "a point is refused");
        must(alone.x == answer.x && alone.y == answer.y, "the two forward calls differ");
        PJ_COORD plane = proj_trans(peer, PJ_FWD, radians[k]);
        must(fabs(plane.xy.y * 1000 - answer.x) < 0.7 && fabs(plane.xy.x * 1000 - answer.y) < 0.7, "a point differs from PROJ by more than 0.7 mm");
        PJ_FACTORS factors = proj_factors(peer, radians[k]);
        must(fabs(factors.meridional_scale * 1e9 - answer.scale) < 0.7, "a scale differs from PROJ");
        must(fabs(factors.meridian_convergence / TICK / 1000 - answer.convergence) < 0.7, "a convergence differs from PROJ");
    }
}

static int64_t peer_plane(PJ *peer, const PJ_COORD &radians) { return (int64_t)proj_trans(peer, PJ_FWD, radians).xy.x; }

static int64_t peer_four(PJ *peer, const PJ_COORD &radians) {
    return peer_plane(peer, radians) + (int64_t)(proj_factors(peer, radians).meridional_scale * 1e9);
}

static void time(const System &system, Lists &plane, Lists &four) {
    std::vector<Ticks> at = points_of(system, COUNT);
    std::vector<PJ_COORD> radians;
    for (const Ticks &point : at) radians.push_back(proj_coord(point.l * TICK, point.b * TICK, 0, 0));
    PJ *exact = made(system.text()), *approx = made(system.text("+approx"));
    compare(system, at, exact, radians);
    compare(system, at, approx, radians);
    plane.time([&](long k) { return returned(bench_forward_plane, system.code, at[k].b, at[k].l).x; },
               [&](long k) { return peer_plane(exact, radians[k]); },
               [&](long k) { return peer_plane(approx, radians[k]); });
    four.time([&](long k) { return returned(bench_forward, system.code, at[k].b, at[k].l).x; },
              [&](long k) { return peer_four(exact, radians[k]); },
              [&](long k) { return peer_four(approx, radians[k]); });
    proj_destroy(exact);
    proj_destroy(approx);
}

int main() {
    about(std::string("PROJ ") + proj_info().version);
    Lists plane, four;
    for (const System &system : SYSTEMS) time(system, plane, four);
    plane.print("forward, X and Y", "PROJ", "`+approx`");
    four.print("forward, all four answers", "PROJ and its factors", "`+approx` and its factors");
}
