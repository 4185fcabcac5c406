/* Random numbers from a seed, the same on every machine (splitmix64); one row of them for all parts of the driver, which has it. Assumes nothing. */
#ifndef RANDOM_H
#define RANDOM_H

#include <stdint.h>

extern uint64_t random_state;

static inline void random_seed(uint64_t seed) { random_state = seed; }

static inline uint64_t random_bits(void) {
    uint64_t z = (random_state += 0x9e3779b97f4a7c15u);
    z = (z ^ (z >> 30)) * 0xbf58476d1ce4e5b9u;
    z = (z ^ (z >> 27)) * 0x94d049bb133111ebu;
    return z ^ (z >> 31);
}

/* from 0 to before `count`; any number for a count of 0, which stands for 2^64 */
static inline uint64_t random_below(uint64_t count) { return count == 0 ? random_bits() : random_bits() % count; }

/* from `low` to `high`, both ends */
static inline int64_t random_between(int64_t low, int64_t high) { return (int64_t)((uint64_t)low + random_below((uint64_t)high - (uint64_t)low + 1)); }

static inline int one_in(uint64_t count) { return random_below(count) == 0; }

/* any int64_t, the largest sizes and the neighbours of round numbers more often than chance has them */
static inline int64_t random_wild(void) {
    switch (random_below(6)) {
    case 0: return INT64_MIN + (int64_t)random_below(3);
    case 1: return INT64_MAX - (int64_t)random_below(3);
    case 2: return random_between(-2, 2);
    case 3: return (int64_t)random_bits() >> random_below(63);
    case 4: return (one_in(2) ? 1 : -1) * ((int64_t)10000000000 + random_between(-1, 1));
    default: return (int64_t)random_bits();
    }
}

#endif
