/*
 * A terminal in small, with a pond in its field: the field is accepted once, and then asked about each point.
 *
 *     (cd crates/terminal && rt lib)
 *     cc -Iinclude -o pond examples/pond.c crates/terminal/out/libterminal.a && ./pond 300 300 200 300 100 100
 *
 * Prints open, border or shut for each point, or the refusal. Assumes pairs of numbers as arguments.
 */
#include <misgwalor.h>
#include <stdio.h>
#include <stdlib.h>

int main(int argc, char **argv) {
    /* the square of document 01, and a square pond */
    const uint32_t counts[] = {4, 4};
    const int64_t corners[] = {0, 0, 1000, 0, 1000, 1000, 0, 1000, 200, 200, 200, 400, 400, 400, 400, 200};
    static const char *const answers[] = {"shut", "open", "border"};
    int64_t answer[1], where[4];
    uint8_t refused = misgwalor_field_accept(counts, 2, corners, 16, where);
    for (int i = 1; i + 1 < argc && !refused; i += 2) {
        refused = misgwalor_field_position(counts, 2, corners, 16, strtoll(argv[i], NULL, 10), strtoll(argv[i + 1], NULL, 10), answer);
        if (!refused) puts(answers[answer[0]]);
    }
    if (refused) printf("refused %d\n", refused);
    return refused ? 1 : 0;
}
