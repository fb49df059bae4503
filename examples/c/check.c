/* Checks a test set for four nets, soft level 1, gate OR and class 4, and prints the verdict.
 *
 * At the repository's root, after `tools/archive`:
 *
 *     cc examples/c/check.c target/staticlib/libexports.a -o target/check && target/check
 */

#include "fontarelga.h"

#include <inttypes.h>
#include <stdio.h>

int main(void)
{
    const uint64_t nets = 4, level = 1, gate = FONTARELGA_GATE_OR, class_ = 4;
    const uint64_t vectors[] = {0, 1, 2, 4, 8};
    const size_t count = sizeof vectors / sizeof vectors[0];
    uint64_t verdict[FONTARELGA_VERDICT_WORDS];

    uint64_t refusal = fontarelga_check(nets, level, gate, class_, vectors, count, verdict);
    if (refusal != 0) {
        printf("refused %" PRIu64 "\n", refusal);
        return 1;
    }
    if (verdict[FONTARELGA_VERDICT_IS_PAIR]) {
        printf("pair %" PRIu64 " %" PRIu64 "\n", verdict[FONTARELGA_VERDICT_A], verdict[FONTARELGA_VERDICT_B]);
    } else {
        printf("pass\n");
    }
    return 0;
}
