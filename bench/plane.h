// Plane points of a system, in whole millimetres as we take them and in metres as PROJ does. Assumes libproj.
#pragma once
#include "systems.h"

struct Plane {
    int64_t x, y;
};

static inline std::vector<Plane> plane_of(PJ *projection, const std::vector<Ticks> &at) {
    std::vector<Plane> found;
    for (const Ticks &point : at) {
        PJ_COORD plane = proj_trans(projection, PJ_FWD, proj_coord(point.l * TICK, point.b * TICK, 0, 0));
        found.push_back({llround(plane.xy.y * 1000), llround(plane.xy.x * 1000)});
    }
    return found;
}

static inline std::vector<PJ_COORD> metres_of(const std::vector<Plane> &at) {
    std::vector<PJ_COORD> found;
    for (const Plane &point : at) found.push_back(proj_coord(point.y / 1000.0, point.x / 1000.0, 0, 0));
    return found;
}
