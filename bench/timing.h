// Timing for the benchmarks: the least processor time of several passes in turn, so that what else the machine does counts as little as it can. Assumes POSIX's
// clock of a thread's processor time.
#pragma once
#include <algorithm>
#include <cstdint>
#include <cstdio>
#include <ctime>
#include <vector>

// Keeps the compiler from leaving a call out.
static volatile int64_t kept;

// Work to be timed: `call(k)` for k below `calls`.
template <class Call>
struct Work {
    long calls;
    Call call;
};

template <class Call>
Work<Call> work(long calls, Call call) {
    return {calls, call};
}

static double processor_nanoseconds() {
    timespec now;
    clock_gettime(CLOCK_THREAD_CPUTIME_ID, &now);
    return now.tv_sec * 1e9 + now.tv_nsec;
}

// Nanoseconds for each call in one pass.
template <class Call>
double one_pass(const Work<Call> &work) {
    double start = processor_nanoseconds();
    int64_t sum = 0;
    for (long k = 0; k < work.calls; k++) sum += work.call(k);
    kept = sum;
    return (processor_nanoseconds() - start) / work.calls;
}

// The least nanoseconds for each call of several works, whose passes take turns: what slows the machine for a while slows them alike.
template <class... Call>
std::vector<double> together(const Work<Call> &...works) {
    std::vector<double> best(sizeof...(works), 1e300);
    for (int pass = 0; pass < 15; pass++) {
        size_t place = 0;
        ((best[place] = std::min(best[place], one_pass(works)), place++), ...);
    }
    return best;
}

// Numbers that look random and are the same in every run.
struct Random {
    uint64_t state;
    explicit Random(uint64_t seed) : state(seed) {}
    uint64_t next() {
        state ^= state << 13;
        state ^= state >> 7;
        state ^= state << 17;
        return state;
    }
    int64_t between(int64_t low, int64_t high) { return low + (int64_t)(next() % (uint64_t)(high - low + 1)); }
    double unit() { return (double)(next() >> 11) / 9007199254740992.0; }
};
