// A call for one point, timed on lists of points beside PROJ's default and its +approx. Several systems are timed one after another, and the rows have their mean.
#pragma once
#include "report.h"
#include "timing.h"

// Points made for each system. Each pass makes as many calls, going round a shorter list.
static const int COUNT = 4096;

class Lists {
    // Powers of two, so that a mask finds the place in a list; a remainder would take a part of what is timed.
    static constexpr int LENGTHS[] = {1, 64, COUNT};
    struct Sum {
        double ours, plain, quick;
    };
    Sum sums[3] = {};
    int systems = 0;

  public:
    // Each of the three takes a point's number and works that point.
    template <class Ours, class Plain, class Quick>
    void time(Ours ours, Plain plain, Quick quick) {
        for (int place = 0; place < 3; place++) {
            const long mask = LENGTHS[place] - 1;
            auto times = together(
                work(COUNT, [&](long k) { return ours(k & mask); }),
                work(COUNT, [&](long k) { return plain(k & mask); }),
                work(COUNT, [&](long k) { return quick(k & mask); }));
            sums[place].ours += times[0] * LENGTHS[place];
            sums[place].plain += times[1] * LENGTHS[place];
            sums[place].quick += times[2] * LENGTHS[place];
        }
        systems++;
    }

    void print(const char *call, const char *plain, const char *quick) const {
        for (int place = 0; place < 3; place++) {
            const Sum &sum = sums[place];
            row(call, LENGTHS[place], "points", sum.ours / systems, {{plain, sum.plain / systems}, {quick, sum.quick / systems}});
        }
    }
};
