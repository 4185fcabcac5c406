/* See report.h. */
#include "report.h"

#include <inttypes.h>
#include <stdio.h>

uint64_t cases, differences;

/* The numbers that each call returns, in the order of documents 01 and 02, and no other; 10 is withdrawn. Those of the projection are met only with it. */
static const struct {
    const char *name;
    int projection, returns[12];
} CALL[CALLS] = {
    {"misgwalor_forward", 1, {0, 1, 2, 3, -1}},
    {"misgwalor_inverse", 1, {0, 1, 4, 2, 3, -1}},
    {"misgwalor_plane_to_plane", 1, {0, 1, 5, 4, 2, 3, -1}},
    {"misgwalor_convert_ring", 1, {0, 1, 5, 6, 7, 8, 14, 4, 2, 3, -1}},
    {"misgwalor_area2", 0, {0, 6, 7, 8, -1}},
    {"misgwalor_turning_number", 0, {0, 6, 7, 8, -1}},
    {"misgwalor_crossing", 0, {0, 6, 7, 8, 9, -1}},
    {"misgwalor_nozzle", 0, {0, 6, 7, 8, 9, -1}},
    {"misgwalor_field_accept", 0, {0, 6, 7, 8, 9, 15, 16, -1}},
    {"misgwalor_field_nozzle", 0, {0, 6, 7, 8, 9, 15, 16, -1}},
    {"misgwalor_field_position", 0, {0, 6, 7, 8, 16, -1}},
    {"the judge itself", 0, {0, -1}},
};

static uint64_t met[CALLS][256];

static int listed(enum call call, int returned) {
    for (const int *number = CALL[call].returns; *number >= 0; number++)
        if (*number == returned) return 1;
    return 0;
}

void judge(int right, enum call call, int returned, const char *what, const int64_t *numbers, size_t count) {
    cases++;
    met[call][returned & 255]++;
    if (right && listed(call, returned)) return;
    if (differences++ >= 10) return;
    printf("difference: %s returned %d: %s:", CALL[call].name, returned, what);
    for (size_t i = 0; i < count && i < 40; i++) printf(" %" PRId64, numbers[i]);
    puts(count > 40 ? " .." : "");
}

void judge_met(int with_projection) {
    for (int call = 0; call < CALLS; call++)
        for (const int *number = CALL[call].returns; *number >= 0; number++)
            if (met[call][*number] == 0 && (with_projection || !CALL[call].projection)) {
                differences++;
                printf("difference: %s never returned %d: the inputs do not try it\n", CALL[call].name, *number);
            }
}
