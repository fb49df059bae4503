/* Works out what a board of four nets with one receiver each, soft level 1 and gate OR, answers to a test set, writes
 * the job file with both, and reads it back. The file has the vectors as parallel words; with -DKIND=4 it has them net
 * by net, as sequential words. Prints the response, the file's size, and what was read: nets, level, gate, class, kind
 * and counts, then the vectors and the responses.
 *
 * At the repository's root, after `tools/archive`:
 *
 *     cc examples/c/job.c target/staticlib/libexports.a -o target/job && target/job
 */

#include "fontarelga.h"

#include <inttypes.h>
#include <stdio.h>

#ifndef KIND
#define KIND FONTARELGA_KIND_PARALLEL
#endif

enum { NETS = 4, LEVEL = 1, GATE = FONTARELGA_GATE_OR, CLASS = 4, VECTORS = 5 };

static void print_words(const char *name, const uint64_t *words, uint64_t count)
{
    printf("%s", name);
    for (uint64_t i = 0; i < count; i++) {
        printf(" %" PRIu64, words[i]);
    }
    printf("\n");
}

/* Reads the file and prints what it holds. Returns the refusal, or 0. */
static uint64_t print_job(const uint8_t *file, size_t size)
{
    uint64_t vectors[FONTARELGA_MOST_VECTORS];
    uint64_t responses[FONTARELGA_MOST_VECTORS];
    uint64_t job[FONTARELGA_JOB_WORDS];

    uint64_t refusal = fontarelga_read_job(file, size, vectors, FONTARELGA_MOST_VECTORS, responses,
                                           FONTARELGA_MOST_VECTORS, job);
    if (refusal == 0) {
        print_words("job", job, FONTARELGA_JOB_WORDS);
        print_words("vectors", vectors, job[FONTARELGA_JOB_VECTORS]);
        print_words("responses", responses, job[FONTARELGA_JOB_RESPONSES]);
    }
    return refusal;
}

int main(void)
{
    const uint64_t vectors[VECTORS] = {0, 1, 2, 4, 8};
    const uint64_t state[NETS] = {3, 3, 0, 8};
    uint64_t receivers[NETS];
    uint64_t response[VECTORS];
    uint8_t file[FONTARELGA_MOST_FILE_BYTES];
    uint64_t size = 0;

    uint64_t refusal = fontarelga_own_receivers(NETS, receivers, NETS);
    if (refusal == 0) {
        refusal = fontarelga_respond(NETS, LEVEL, GATE, receivers, NETS, CLASS, vectors, VECTORS, state, NETS, response,
                                     VECTORS);
    }
    if (refusal == 0) {
        print_words("response", response, VECTORS);
        refusal = fontarelga_write_job(KIND, NETS, LEVEL, GATE, CLASS, vectors, VECTORS, response, VECTORS, file,
                                       sizeof file, &size);
    }
    if (refusal == 0) {
        print_words("bytes", &size, 1);
        refusal = print_job(file, size);
    }
    if (refusal != 0) {
        printf("refused %" PRIu64 "\n", refusal);
        return 1;
    }
    return 0;
}
