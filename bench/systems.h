// The systems that the benchmarks use, as PROJ writes them, and points of their zones. Assumes libproj.
#pragma once
#include <proj.h>

#include <cmath>
#include <string>
#include <vector>

#include "report.h"
#include "timing.h"

static const double TICK = M_PI / 648000000000.0;

struct System {
    int code;
    double meridian, m0;
    int north, east;
    const char *shape;
    double half_width;
    std::string text(const char *more = "") const {
        char line[400];
        snprintf(line, sizeof line, "+proj=tmerc %s +lat_0=0 +lon_0=%.15g +k=%.15g +x_0=%d +y_0=%d %s", more, meridian, m0, east, north, shape);
        return line;
    }
};

static const System SYSTEMS[] = {
    {1, 19, 0.9993, -5300000, 500000, "+a=6378137 +rf=298.257222101", 5.5},
    {3, 18, 0.999923, 0, 6500000, "+a=6378137 +rf=298.257222101", 1.5},
    {7, 21, 0.9996, 0, 500000, "+a=6378137 +rf=298.257222101", 3},
    {9, 21, 1, 0, 4500000, "+a=6378245 +rf=298.3", 3},
    {14, 18 + 57.5 / 60, 0.999983, -4700000, 237000, "+a=6378245 +rf=298.3", 2},
};

struct Ticks {
    int64_t b, l;
};

// Random points of a zone, a little inside its edges.
static std::vector<Ticks> points_of(const System &system, int count) {
    Random random(100 + system.code);
    std::vector<Ticks> made;
    for (int k = 0; k < count; k++) {
        double d = system.half_width * 0.999 * (2 * random.unit() - 1);
        made.push_back({random.between(172900000000, 201500000000), llround((system.meridian + d) * 3600000000.0)});
    }
    return made;
}

static PJ *made(const std::string &text) {
    PJ *projection = proj_create(nullptr, text.c_str());
    must(projection != nullptr, "PROJ takes no system");
    return projection;
}
