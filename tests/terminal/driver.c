/*
 * The test driver of the C interface: known numbers, then random ones, each call judged from outside.
 *
 *     driver all|rings ROUNDS [SEED]
 *
 * `rings` leaves the projection out; both have rings and fields. Prints what differs and one last line, and exits with 1 where something differs. Assumes the
 * library that it is linked to.
 */
#include <inttypes.h>
#include <stdio.h>
#include <stdlib.h>
#include <string.h>

#include "cases.h"
#include "lend.h"
#include "random.h"
#include "report.h"

extern long double farthest[2];

uint64_t random_state;

int main(int argc, char **argv) {
    if (argc < 3 || (strcmp(argv[1], "all") != 0 && strcmp(argv[1], "rings") != 0)) {
        fprintf(stderr, "usage: %s all|rings ROUNDS [SEED]\n", argv[0]);
        return 2;
    }
    int projection = strcmp(argv[1], "all") == 0;
    uint64_t rounds = strtoull(argv[2], NULL, 10);
    random_seed(argc > 3 ? strtoull(argv[3], NULL, 10) : 19920801);
    lend_begin();
    known_rings();
    ring_cases(rounds);
    if (projection) {
        known_points();
        point_cases(rounds);
        printf("terminal: farthest from the procedure: %.4Lf unit, %.4Lf tick\n", farthest[0], farthest[1]);
    }
    conversion_cases(rounds / 10);
    known_fields();
    swept_fields();
    field_cases(rounds);
    judge_met(projection);
    printf("terminal: %" PRIu64 " cases, %" PRIu64 " differences%s\n", cases, differences, projection ? "" : " (projection left out)");
    return differences == 0 ? 0 : 1;
}
