// What a part of the benchmark hands to bench/run: lines of fields parted by tabs on standard output, of which bench/table.py makes the one table. Complaints
// go to standard error.
#pragma once
#include <cstdio>
#include <cstdlib>
#include <initializer_list>
#include <string>

static inline void must(bool held, const char *what) {
    if (held) return;
    fprintf(stderr, "bench: %s\n", what);
    exit(1);
}

// Something for the table's heading, as a peer's name with the version that is linked.
static inline void about(const std::string &what) { printf("about\t%s\n", what.c_str()); }

// A peer and its nanoseconds for the same work.
struct Peer {
    const char *name;
    double nanoseconds;
};

// A row: a call on `size` of `unit`, our nanoseconds for the whole of it, and one or two peers (none where nothing does the same).
static inline void row(const std::string &call, long size, const char *unit, double ours, std::initializer_list<Peer> peers) {
    printf("time\t%s\t%ld\t%s\t%.17g", call.c_str(), size, unit, ours);
    for (const Peer &peer : peers) printf("\t%s\t%.17g", peer.name, peer.nanoseconds);
    printf("\n");
}

// How many pairs of edges a row's call said that it looked at.
static inline void pairs(const std::string &call, long size, long looked) { printf("pairs\t%s\t%ld\t%ld\n", call.c_str(), size, looked); }
