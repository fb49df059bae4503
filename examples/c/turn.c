/* Turns a test set for four nets, a parallel word a vector, into sequential words, one a net, and back. Prints the
 * sequential words, and the vectors that they give.
 *
 * At the repository's root, after `tools/archive`:
 *
 *     cc examples/c/turn.c target/staticlib/libexports.a -o target/turn && target/turn
 */

#include "fontarelga.h"

#include <inttypes.h>
#include <stdio.h>

enum { NETS = 4, VECTORS = 5 };

static void print_words(const char *name, const uint64_t *words, uint64_t count)
{
    printf("%s", name);
    for (uint64_t i = 0; i < count; i++) {
        printf(" %" PRIu64, words[i]);
    }
    printf("\n");
}

int main(void)
{
    const uint64_t vectors[VECTORS] = {0, 1, 2, 4, 8};
    uint64_t words[NETS];
    uint64_t back[VECTORS];

    uint64_t refusal = fontarelga_turn(NETS, vectors, VECTORS, words, NETS);
    if (refusal == 0) {
        print_words("sequential", words, NETS);
        refusal = fontarelga_turn_back(NETS, VECTORS, words, NETS, back, VECTORS);
    }
    if (refusal == 0) {
        print_words("vectors", back, VECTORS);
    }
    if (refusal != 0) {
        printf("refused %" PRIu64 "\n", refusal);
        return 1;
    }
    return 0;
}
