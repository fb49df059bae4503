/* Diagnoses a board of four nets with one receiver each, soft level 1 and gate OR, for class 4, and prints what is
 * found, a line a net: net, kind, reach, partners.
 *
 * At the repository's root, after `tools/archive`:
 *
 *     cc examples/c/diagnose.c target/staticlib/libexports.a -o target/diagnose && target/diagnose
 */

#include "fontarelga.h"

#include <inttypes.h>
#include <stdio.h>

enum { NETS = 4, LEVEL = 1, GATE = FONTARELGA_GATE_OR, CLASS = 4, VECTORS = 5 };
enum { TABLE_WORDS = NETS * FONTARELGA_FINDING_WORDS };

int main(void)
{
    const uint64_t vectors[VECTORS] = {0, 1, 2, 4, 8};
    const uint64_t responses[VECTORS] = {4, 7, 7, 4, 12};
    uint64_t receivers[NETS];
    uint64_t state[NETS];
    uint64_t table[TABLE_WORDS];

    uint64_t refusal = fontarelga_own_receivers(NETS, receivers, NETS);
    if (refusal == 0) {
        refusal = fontarelga_diagnose(NETS, LEVEL, GATE, receivers, NETS, CLASS, vectors, VECTORS, responses, VECTORS,
                                      state, NETS);
    }
    if (refusal == 0) {
        refusal = fontarelga_findings(NETS, LEVEL, GATE, receivers, NETS, state, NETS, table, TABLE_WORDS);
    }
    if (refusal != 0) {
        printf("refused %" PRIu64 "\n", refusal);
        return 1;
    }
    for (int net = 0; net < NETS; net++) {
        const uint64_t *finding = &table[net * FONTARELGA_FINDING_WORDS];
        printf("%d %" PRIu64 " %" PRIu64 " %" PRIu64 "\n", net, finding[FONTARELGA_FINDING_KIND],
               finding[FONTARELGA_FINDING_REACH], finding[FONTARELGA_FINDING_PARTNERS]);
    }
    return 0;
}
