/* Diagnoses a simulated board of four nets by the clocks of its boundary-scan chain, and prints the bytes of the first
 * scan, the responses and the reaches found. Soft level 1, gate OR, class 4.
 *
 * Two chips are in one chain. TDI of the board goes to chip 1, TDO of chip 1 to TDI of chip 2, and TDO of chip 2 is
 * TDO of the board. Each chip has five cells, counted from its own TDO. The chain counts from the board's TDO, so chip
 * 2's cells come first, as 0 to 4, and chip 1's follow, as 5 to 9:
 *
 *     chip 2, cell 0    0    reads net 2
 *             cell 1    1    idle: a pin that is on no net to be tested
 *             cell 2    2    reads net 0
 *             cell 3    3    drives net 3
 *             cell 4    4    reads net 1
 *     chip 1, cell 0    5    drives net 1
 *             cell 1    6    drives net 0
 *             cell 2    7    reads net 3
 *             cell 3    8    idle
 *             cell 4    9    drives net 2
 *
 * At the repository's root, after `tools/archive`:
 *
 *     cc examples/c/chain.c target/staticlib/libexports.a -o target/chain && target/chain
 */

#include "fontarelga_chain.h"

#include <inttypes.h>
#include <stdio.h>
#include <string.h>

enum { NETS = 4, RECEIVERS = NETS, LEVEL = 1, GATE = FONTARELGA_GATE_OR, CLASS = 4, VECTORS = 5 };
enum { CELLS_OF_CHIP = 5, CELLS = 2 * CELLS_OF_CHIP, SCAN = CELLS + 5, CLOCKS = (VECTORS + 1) * SCAN };

/* The number that a chip's cell has in the chain. */
#define OF_CHIP_1(cell) (CELLS_OF_CHIP + (cell))
#define OF_CHIP_2(cell) (cell)

/* The cell of each net's driver, and of each receiver. */
static const uint64_t driver_cells[NETS] = {OF_CHIP_1(1), OF_CHIP_1(0), OF_CHIP_1(4), OF_CHIP_2(3)};
static const uint64_t receiver_cells[RECEIVERS] = {OF_CHIP_2(2), OF_CHIP_2(4), OF_CHIP_2(0), OF_CHIP_1(2)};

/* From here to play_clock is the simulated board. In its place a bench has a pod, with the chips in Run-Test/Idle and
 * EXTEST loaded. */

/* The states of the chips that the clocks lead through, and, for all others, one in which nothing is done. */
enum state { RUN_TEST_IDLE, SELECT_DR_SCAN, CAPTURE_DR, SHIFT_DR, EXIT1_DR, UPDATE_DR, ELSEWHERE };

/* The next state with TMS 0, and with TMS 1. */
static const enum state next[][2] = {
    [RUN_TEST_IDLE] = {RUN_TEST_IDLE, SELECT_DR_SCAN},
    [SELECT_DR_SCAN] = {CAPTURE_DR, ELSEWHERE},
    [CAPTURE_DR] = {SHIFT_DR, EXIT1_DR},
    [SHIFT_DR] = {SHIFT_DR, EXIT1_DR},
    [EXIT1_DR] = {ELSEWHERE, UPDATE_DR},
    [UPDATE_DR] = {RUN_TEST_IDLE, SELECT_DR_SCAN},
    [ELSEWHERE] = {ELSEWHERE, ELSEWHERE},
};

/* A chip: what is in its cells, and what their outputs took over last. */
struct chip {
    uint8_t cells[CELLS_OF_CHIP];
    uint8_t outputs[CELLS_OF_CHIP];
};

static struct chip chip_1, chip_2;
static enum state state = RUN_TEST_IDLE;

/* The wiring: nets 0 and 1 are tied together, and the receiver of net 2 floats. */
static int tied(void)
{
    return chip_1.outputs[1] || chip_1.outputs[0];
}

static void capture(void)
{
    memset(chip_1.cells, 1, CELLS_OF_CHIP);
    memset(chip_2.cells, 1, CELLS_OF_CHIP);
    chip_2.cells[2] = tied();
    chip_2.cells[4] = tied();
    chip_2.cells[0] = LEVEL;
    chip_1.cells[2] = chip_2.outputs[3];
}

/* Shifts a chip's cells towards its TDO. */
static void shift(struct chip *chip, uint8_t tdi)
{
    memmove(chip->cells, chip->cells + 1, CELLS_OF_CHIP - 1);
    chip->cells[CELLS_OF_CHIP - 1] = tdi;
}

static void update(struct chip *chip)
{
    memcpy(chip->outputs, chip->cells, CELLS_OF_CHIP);
}

/* Plays one clock, and returns TDO as it was before TCK rose. */
static uint8_t play_clock(uint8_t clock)
{
    const int tms = (clock & FONTARELGA_CLOCK_TMS) != 0;
    const uint8_t tdi = (clock & FONTARELGA_CLOCK_TDI) != 0;
    const uint8_t tdo_of_chip_1 = chip_1.cells[0];
    const uint8_t tdo = chip_2.cells[0];

    /* TCK rises. */
    if (state == CAPTURE_DR) {
        capture();
    }
    if (state == SHIFT_DR) {
        shift(&chip_1, tdi);
        shift(&chip_2, tdo_of_chip_1);
    }
    state = next[state][tms];
    /* TCK falls. */
    if (state == UPDATE_DR) {
        update(&chip_1);
        update(&chip_2);
    }
    return tdo;
}

static void print_words(const char *name, const uint64_t *words, uint64_t count)
{
    printf("%s", name);
    for (uint64_t i = 0; i < count; i++) {
        printf(" %" PRIu64, words[i]);
    }
    printf("\n");
}

static void print_bytes(const char *name, const uint8_t *bytes, uint64_t count)
{
    printf("%s", name);
    for (uint64_t i = 0; i < count; i++) {
        printf(" %d", bytes[i]);
    }
    printf("\n");
}

int main(void)
{
    const uint64_t vectors[VECTORS] = {1, 2, 4, 8, 0};
    uint64_t receivers[RECEIVERS], responses[VECTORS], reaches[RECEIVERS];
    uint8_t clocks[CLOCKS], tdo[CLOCKS];

    uint64_t refusal = fontarelga_own_receivers(NETS, receivers, RECEIVERS);
    if (refusal == 0) {
        refusal = fontarelga_write_clocks(NETS, receivers, RECEIVERS, vectors, VECTORS, CELLS, driver_cells, NETS,
                                          receiver_cells, RECEIVERS, clocks, CLOCKS);
    }
    if (refusal == 0) {
        print_bytes("first scan", clocks, SCAN);
        for (int i = 0; i < CLOCKS; i++) {
            tdo[i] = play_clock(clocks[i]);
        }
        refusal = fontarelga_read_clocks(NETS, receivers, RECEIVERS, VECTORS, CELLS, driver_cells, NETS,
                                         receiver_cells, RECEIVERS, tdo, CLOCKS, responses, VECTORS);
    }
    if (refusal == 0) {
        print_words("responses", responses, VECTORS);
        refusal = fontarelga_diagnose(NETS, LEVEL, GATE, receivers, RECEIVERS, CLASS, vectors, VECTORS, responses,
                                      VECTORS, reaches, RECEIVERS);
    }
    if (refusal != 0) {
        printf("refused %" PRIu64 "\n", refusal);
        return 1;
    }
    print_words("reaches", reaches, RECEIVERS);
    return 0;
}
