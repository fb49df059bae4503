/* Finds the wiring state of a simulated board of four nets with one receiver each in a session, and prints what is
 * driven and read, the reaches found, and the number of vectors spent. Its soft level is 1; with -DLEVEL=0 it is 0. Its
 * gate is OR; with -DGATE=1 it is AND.
 *
 * At the repository's root, after `tools/archive`:
 *
 *     cc examples/c/session.c target/staticlib/libexports.a -o target/session && target/session
 */

#include "fontarelga.h"

#include <inttypes.h>
#include <stdio.h>

#ifndef LEVEL
#define LEVEL 1
#endif

#ifndef GATE
#define GATE FONTARELGA_GATE_OR
#endif

enum { NETS = 4, FIRST = FONTARELGA_MOST_FIRST_VECTORS, SECOND = FONTARELGA_MOST_SECOND_VECTORS };

/* The board: nets 0 and 1 are tied together, and receiver 2 floats. */
static const uint64_t board[NETS] = {3, 3, 0, 8};

/* What a receiver with this reach reads. With an empty reach it reads the level. Else with OR it reads 1 if a driver in
 * the reach drives 1, and with AND it reads 0 if a driver in the reach drives 0. */
static int reads_1(uint64_t reach, uint64_t vector)
{
    if (reach == 0) {
        return LEVEL == 1;
    }
    if (GATE == FONTARELGA_GATE_AND) {
        return (reach & ~vector) == 0;
    }
    return (reach & vector) != 0;
}

/* What the board's receivers read. */
static uint64_t read_board(uint64_t vector)
{
    uint64_t word = 0;
    for (int receiver = 0; receiver < NETS; receiver++) {
        if (reads_1(board[receiver], vector)) {
            word |= UINT64_C(1) << receiver;
        }
    }
    return word;
}

static void print_words(const char *name, const uint64_t *words, uint64_t count)
{
    printf("%s", name);
    for (uint64_t i = 0; i < count; i++) {
        printf(" %" PRIu64, words[i]);
    }
    printf("\n");
}

/* Drives the vectors of the step that the session waits for, and gives it the answers. Returns its refusal, or 0. */
static uint64_t do_step(uint64_t session[FONTARELGA_SESSION_WORDS], const uint64_t first[FIRST],
                        uint64_t second[SECOND])
{
    const int in_step_one = session[FONTARELGA_SESSION_STEP] == FONTARELGA_STEP_FIRST;
    const uint64_t *vectors = in_step_one ? first : second;
    const uint64_t count = fontarelga_to_drive(session, first, FIRST, second, SECOND);
    uint64_t answers[SECOND] = {0};

    for (uint64_t i = 0; i < count; i++) {
        answers[i] = read_board(vectors[i]);
    }
    print_words("drive", vectors, count);
    print_words("read", answers, count);
    if (in_step_one) {
        return fontarelga_first_answers(session, answers, count, second, SECOND);
    }
    return fontarelga_second_answers(session, answers, count);
}

int main(void)
{
    uint64_t session[FONTARELGA_SESSION_WORDS] = {0};
    uint64_t receivers[NETS], first[FIRST] = {0}, second[SECOND] = {0};

    uint64_t refusal = fontarelga_own_receivers(NETS, receivers, NETS);
    if (refusal == 0) {
        refusal = fontarelga_begin(session, NETS, LEVEL, GATE, receivers, NETS, first, FIRST);
    }
    while (refusal == 0 && session[FONTARELGA_SESSION_STEP] != FONTARELGA_STEP_FINISHED) {
        refusal = do_step(session, first, second);
    }
    if (refusal != 0) {
        printf("refused %" PRIu64 "\n", refusal);
        return 1;
    }
    print_words("reaches", &session[FONTARELGA_SESSION_REACHES], session[FONTARELGA_SESSION_RECEIVERS]);
    print_words("spent", &session[FONTARELGA_SESSION_SPENT], 1);
    return 0;
}
