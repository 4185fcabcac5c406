/*
 * A terminal in small: is the nozzle open at a point of the square of document 01?
 *
 *     (cd crates/terminal && rt lib)
 *     cc -Iinclude -o nozzle examples/nozzle.c crates/terminal/out/libterminal.a && ./nozzle 500 500
 *
 * Prints open, border, shut, or the refusal. Assumes two numbers as arguments.
 */
#include <misgwalor.h>
#include <stdio.h>
#include <stdlib.h>

int main(int argc, char **argv) {
    const int64_t square[] = {0, 0, 1000, 0, 1000, 1000, 0, 1000};
    static const char *const answers[] = {"shut", "open", "border"};
    int64_t answer[1], edges[2], pairs[1];
    if (argc != 3) return 2;
    uint8_t refused = misgwalor_nozzle(square, 8, strtoll(argv[1], NULL, 10), strtoll(argv[2], NULL, 10), answer, edges, pairs);
    if (refused) {
        printf("refused %d\n", refused);
        return 1;
    }
    puts(answers[answer[0]]);
    return 0;
}
