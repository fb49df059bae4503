/* Diagnoses a board with a clock net of three receivers and a net of one, soft level 1 and gate OR, for class 2, and
 * prints what is found, a line a receiver: receiver, its net, kind, reach, partners.
 *
 * At the repository's root, after `tools/archive`:
 *
 *     cc examples/c/clock.c target/staticlib/libexports.a -o target/clock && target/clock
 */

#include "fontarelga.h"

#include <inttypes.h>
#include <stdio.h>

enum { NETS = 2, LEVEL = 1, GATE = FONTARELGA_GATE_OR, RECEIVERS = 4, CLASS = 2, VECTORS = 3 };
enum { TABLE_WORDS = RECEIVERS * FONTARELGA_FINDING_WORDS };

/* The net of each receiver. */
static const uint64_t receivers[RECEIVERS] = {0, 0, 0, 1};

int main(void)
{
    const uint64_t vectors[VECTORS] = {0, 1, 2};
    const uint64_t responses[VECTORS] = {2, 7, 10};
    uint64_t state[RECEIVERS];
    uint64_t table[TABLE_WORDS];

    uint64_t refusal = fontarelga_diagnose(NETS, LEVEL, GATE, receivers, RECEIVERS, CLASS, vectors, VECTORS, responses,
                                           VECTORS, state, RECEIVERS);
    if (refusal == 0) {
        refusal = fontarelga_findings(NETS, LEVEL, GATE, receivers, RECEIVERS, state, RECEIVERS, table, TABLE_WORDS);
    }
    if (refusal != 0) {
        printf("refused %" PRIu64 "\n", refusal);
        return 1;
    }
    for (int receiver = 0; receiver < RECEIVERS; receiver++) {
        const uint64_t *finding = &table[receiver * FONTARELGA_FINDING_WORDS];
        printf("%d %" PRIu64 " %" PRIu64 " %" PRIu64 " %" PRIu64 "\n", receiver, receivers[receiver],
               finding[FONTARELGA_FINDING_KIND], finding[FONTARELGA_FINDING_REACH],
               finding[FONTARELGA_FINDING_PARTNERS]);
    }
    return 0;
}
