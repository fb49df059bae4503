/* Shortens a test set for four nets, soft level 1, gate OR and class 2, with seven checks allowed, and prints the
 * vectors kept, their number, the checks made, and the floor: no set that is passed for the class has fewer vectors.
 *
 * At the repository's root, after `tools/archive`:
 *
 *     cc examples/c/shorten.c target/staticlib/libexports.a -o target/shorten && target/shorten
 */

#include "fontarelga.h"

#include <inttypes.h>
#include <stdio.h>

enum { NETS = 4, LEVEL = 1, GATE = FONTARELGA_GATE_OR, CLASS = 2, VECTORS = 7, ALLOWED = 7 };

int main(void)
{
    const uint64_t vectors[VECTORS] = {0, 1, 2, 4, 8, 3, 5};
    uint64_t kept[VECTORS];
    uint64_t shortened[FONTARELGA_SHORTENED_WORDS];

    uint64_t refusal = fontarelga_shorten(NETS, LEVEL, GATE, CLASS, vectors, VECTORS, ALLOWED, kept, VECTORS,
                                          shortened);
    if (refusal != 0) {
        printf("refused %" PRIu64 "\n", refusal);
        return 1;
    }
    printf("vectors");
    for (uint64_t i = 0; i < shortened[FONTARELGA_SHORTENED_KEPT]; i++) {
        printf(" %" PRIu64, kept[i]);
    }
    printf("\nkept %" PRIu64 "\n", shortened[FONTARELGA_SHORTENED_KEPT]);
    printf("checks %" PRIu64 "\n", shortened[FONTARELGA_SHORTENED_CHECKS]);
    printf("floor %" PRIu64 "\n", shortened[FONTARELGA_SHORTENED_FLOOR]);
    return 0;
}
