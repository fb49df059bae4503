/* The C interface of the library: opens and shorts of a circuit board, read from boundary-scan responses.
 *
 * Link with libexports.a, which `tools/archive` writes to target/staticlib. It wants memcpy and memset.
 *
 * A call returns 0 if it is accepted, else the number of the first row of the table of refusals that holds; beside each
 * call stand its rows, in the table's order. After a refusal every list is as it was. A result goes to the front of a
 * list; a longer list keeps its tail.
 *
 * A list is a pointer and a length in elements. One that always has the same length (verdict, shortened, session,
 * job) is a pointer alone, and its length stands in the brackets. Any numbers, any bytes and any lengths are ordinary
 * inputs. The caller owes:
 *
 * - pointers that are not null, also for length 0, and words aligned to 8 bytes;
 * - as many elements behind a pointer as its length says, or the brackets; behind size one word;
 * - that what a call writes overlaps nothing else that it is given.
 *
 * A call allocates nothing: what it needs it takes from the stack. Shortening, and check and diagnosis for class 1, 2
 * or 3 below nets, take up to 270,000 bytes of it; all else takes up to 17,000. So check, shortening and diagnosis run
 * on a thread with a stack of at least FONTARELGA_CHECK_STACK_BYTES (320 KB), all else with
 * FONTARELGA_OTHER_STACK_BYTES (32 KB); either leaves at least 16,000 bytes to the thread itself, and one that needs
 * more adds it. By default a thread has 8 MB on Linux with glibc, but 128 KB with musl. A program whose threads have
 * less makes the call on a thread to which it gives as much, with pthread_attr_setstacksize.
 *
 * nets is n, 2 to 48. level is the soft level, 0 or 1: what a receiver reads that no driver reaches. gate is
 * FONTARELGA_GATE_OR or FONTARELGA_GATE_AND. receivers has the net of each receiver, n to 64 of them, at least one on
 * each net; its length is m, and an empty list is refused with 21 as any other that is too short. class_ is k, the most
 * drivers of a reach: 1, 2, 3, n or, for n up to 10, one from 4 to n - 1.
 * Bit i of a word stands for net i, and in responses and answers for receiver i. Vectors, responses and answers are
 * parallel words, one for each vector. A sequential word belongs to a net, and its bit t stands for vector t. */

#ifndef FONTARELGA_H
#define FONTARELGA_H

#include <stddef.h>
#include <stdint.h>

#ifdef __cplusplus
extern "C" {
#endif

/* The most that a board, a test set and a job file may have. */
#define FONTARELGA_MOST_NETS 48
#define FONTARELGA_MOST_RECEIVERS 64
#define FONTARELGA_MOST_VECTORS 64
#define FONTARELGA_MOST_FILE_BYTES 2048

/* What a receiver reads that a driver reaches. OR: 1 if a driver in its reach drives 1, else 0. AND: 0 if a driver in
 * its reach drives 0, else 1. */
#define FONTARELGA_GATE_OR 0
#define FONTARELGA_GATE_AND 1

/* How a job file has the vectors. PARALLEL: vector by vector, a parallel word for each. SEQUENTIAL: net by net, their
 * number in a byte and then a sequential word for each net, as an archive keeps them in which nets are looked up. */
#define FONTARELGA_KIND_PARALLEL 2
#define FONTARELGA_KIND_SEQUENTIAL 4

/* The stack of a thread that is enough for check, shortening and diagnosis, and for all else. */
#define FONTARELGA_CHECK_STACK_BYTES 327680
#define FONTARELGA_OTHER_STACK_BYTES 32768

/* A verdict: 0 0 0 for pass, or 1 and a pair of driver sets that the test set cannot tell apart. */
#define FONTARELGA_VERDICT_WORDS 3
#define FONTARELGA_VERDICT_IS_PAIR 0
#define FONTARELGA_VERDICT_A 1
#define FONTARELGA_VERDICT_B 2

/* Can the test set tell all states of the class apart? Rows 5, 6, 17, 20, 7, 8. */
uint64_t fontarelga_check(uint64_t nets, uint64_t level, uint64_t gate, uint64_t class_, const uint64_t *vectors,
                          size_t vectors_len, uint64_t verdict[FONTARELGA_VERDICT_WORDS]);

/* What is said of a shortened set: how many vectors are kept, the checks made, and the floor, which is the smallest q
 * with 2^q at least the number of sets of at most class_ drivers, the empty one included. Every passed set of the class
 * has at least q vectors. */
#define FONTARELGA_SHORTENED_WORDS 3
#define FONTARELGA_SHORTENED_KEPT 0
#define FONTARELGA_SHORTENED_CHECKS 1
#define FONTARELGA_SHORTENED_FLOOR 2

/* A shorter test set, for class 1, 2 or 3. From the last vector to the first, each is left out if those kept so far are
 * passed without it. Each trial costs one check; allowed is how many may be made, any number, and with none left the
 * rest is kept. The vectors kept go to kept in the order given, and no other word of it is written; it is another list
 * than vectors and must have room for all of them. Rows 5, 6 (also for every class above 3), 17, 20, 7, 8, 12, 13 (the
 * set given is not passed). */
uint64_t fontarelga_shorten(uint64_t nets, uint64_t level, uint64_t gate, uint64_t class_, const uint64_t *vectors,
                            size_t vectors_len, uint64_t allowed, uint64_t *kept, size_t kept_len,
                            uint64_t shortened[FONTARELGA_SHORTENED_WORDS]);

/* The list of receivers of a network with one receiver a net: 0 to nets - 1, receiver i on net i. Rows 5, 12. */
uint64_t fontarelga_own_receivers(uint64_t nets, uint64_t *receivers, size_t receivers_len);

/* The response of a wiring state, which has a reach a receiver: a word a vector.
 * Rows 5, 21, 6, 17, 20, 7, 8, 11, 12. */
uint64_t fontarelga_respond(uint64_t nets, uint64_t level, uint64_t gate, const uint64_t *receivers,
                            size_t receivers_len, uint64_t class_, const uint64_t *vectors, size_t vectors_len,
                            const uint64_t *state, size_t state_len, uint64_t *response, size_t response_len);

/* The only state of the class that gives the responses: a reach a receiver.
 * Rows 5, 21, 6, 17, 20, 7 to 10, 12 to 14. */
uint64_t fontarelga_diagnose(uint64_t nets, uint64_t level, uint64_t gate, const uint64_t *receivers,
                             size_t receivers_len, uint64_t class_, const uint64_t *vectors, size_t vectors_len,
                             const uint64_t *responses, size_t responses_len, uint64_t *state, size_t state_len);

/* A finding: kind (0 sound, 1 open, 2 short, 3 both), reach, partners. A receiver is open if its own net's driver does
 * not reach it, and a short if it has partners. Its partners are nets: another net j than its own, bit j of the word,
 * is one if j has a receiver of the same reach, which is not empty, if j's driver and its own net's driver reach one
 * receiver, whichever, if j's driver reaches it, or if its own net's driver reaches a receiver of j. */
#define FONTARELGA_FINDING_WORDS 3
#define FONTARELGA_FINDING_KIND 0
#define FONTARELGA_FINDING_REACH 1
#define FONTARELGA_FINDING_PARTNERS 2

/* What is found at each receiver of a state: a finding a receiver. A table has room for a third as many findings as it
 * has words. Level and gate are tested and have no part in what is found. Rows 5, 21, 17, 20, 11, 12. */
uint64_t fontarelga_findings(uint64_t nets, uint64_t level, uint64_t gate, const uint64_t *receivers,
                             size_t receivers_len, const uint64_t *state, size_t state_len, uint64_t *table,
                             size_t table_len);

/* A session record: step, nets, level, gate, number of receivers, the net of each in 64 words, 8 words of first
 * answers, 64 reaches, vectors spent. The receivers stay in every step; what a step does not use is 0, and so are the
 * places of receivers that there are not. A record of any content may be given to begin. */
#define FONTARELGA_SESSION_WORDS 142
#define FONTARELGA_SESSION_STEP 0
#define FONTARELGA_SESSION_NETS 1
#define FONTARELGA_SESSION_LEVEL 2
#define FONTARELGA_SESSION_GATE 3
#define FONTARELGA_SESSION_RECEIVERS 4
#define FONTARELGA_SESSION_OWNERS 5
#define FONTARELGA_SESSION_FIRST_ANSWERS 69
#define FONTARELGA_SESSION_REACHES 77
#define FONTARELGA_SESSION_SPENT 141

/* The steps of a session: it waits for first answers, it waits for second answers, it is finished. */
#define FONTARELGA_STEP_FIRST 1
#define FONTARELGA_STEP_SECOND 2
#define FONTARELGA_STEP_FINISHED 3

/* The most vectors of step one, and of step two, which has one less with OR at level 0 and with AND at level 1. */
#define FONTARELGA_MOST_FIRST_VECTORS 8
#define FONTARELGA_MOST_SECOND_VECTORS 49

/* Starts the record anew, and writes the vectors of step one. The receivers are not the session's own words: copy
 * these to begin anew on the same board. Rows 5, 21, 17, 20, 12. */
uint64_t fontarelga_begin(uint64_t session[FONTARELGA_SESSION_WORDS], uint64_t nets, uint64_t level, uint64_t gate,
                          const uint64_t *receivers, size_t receivers_len, uint64_t *first, size_t first_len);

/* Takes the answers to step one. Writes the vectors of step two if a net is unclear; else the session is finished.
 * A net is clear if all its receivers returned its word and no other receiver did. Rows 4, 9, 10, 12. */
uint64_t fontarelga_first_answers(uint64_t session[FONTARELGA_SESSION_WORDS], const uint64_t *answers,
                                  size_t answers_len, uint64_t *second, size_t second_len);

/* Takes the answers to step two, and finishes with the only state that fits both steps. Rows 4, 9, 10, 14. */
uint64_t fontarelga_second_answers(uint64_t session[FONTARELGA_SESSION_WORDS], const uint64_t *answers,
                                   size_t answers_len);

/* How many words to drive next, from the start of first in step 1, of second in step 2; 0 if none. No refusal. */
uint64_t fontarelga_to_drive(const uint64_t session[FONTARELGA_SESSION_WORDS], const uint64_t *first,
                             size_t first_len, const uint64_t *second, size_t second_len);

/* The sequential words of a test set, one a net: bit t of word i is bit i of vector t. Rows 5, 7, 8, 12. */
uint64_t fontarelga_turn(uint64_t nets, const uint64_t *vectors, size_t vectors_len, uint64_t *words,
                         size_t words_len);

/* The test set of sequential words: count vectors, 1 to 64. Either call after the other gives back what went in.
 * Rows 5, 7 (also if the words are not as many as nets), 8 (a word has a bit at or above count), 12. */
uint64_t fontarelga_turn_back(uint64_t nets, uint64_t count, const uint64_t *words, size_t words_len,
                              uint64_t *vectors, size_t vectors_len);

/* A job: nets, level, gate, class, kind, number of vectors, number of responses. The kind is FONTARELGA_KIND_PARALLEL
 * or FONTARELGA_KIND_SEQUENTIAL; with either, both lists have parallel words. A job is of one receiver a net, receiver
 * i on net i, so row 10 goes by nets; for the calls above fontarelga_own_receivers fills their list. */
#define FONTARELGA_JOB_WORDS 7
#define FONTARELGA_JOB_NETS 0
#define FONTARELGA_JOB_LEVEL 1
#define FONTARELGA_JOB_GATE 2
#define FONTARELGA_JOB_CLASS 3
#define FONTARELGA_JOB_KIND 4
#define FONTARELGA_JOB_VECTORS 5
#define FONTARELGA_JOB_RESPONSES 6

/* Reads a job file of either kind. Rows 1 to 3, 5, 6, 17, 20, 7 to 10, 12. With sequential words 7 also holds if they
 * are not as many as nets, and 8 if one has a bit at or above the number of vectors that the file says; 9 and 12 go by
 * that number. */
uint64_t fontarelga_read_job(const uint8_t *file, size_t file_len, uint64_t *vectors, size_t vectors_len,
                             uint64_t *responses, size_t responses_len, uint64_t job[FONTARELGA_JOB_WORDS]);

/* Writes a job file of this kind, with two entries if there are no responses. size: one word, how many bytes.
 * Rows 2 (only if it is neither kind), 5, 6, 17, 20, 7 to 10, 12. */
uint64_t fontarelga_write_job(uint64_t kind, uint64_t nets, uint64_t level, uint64_t gate, uint64_t class_,
                              const uint64_t *vectors, size_t vectors_len, const uint64_t *responses,
                              size_t responses_len, uint8_t *file, size_t file_len, uint64_t *size);

#ifdef __cplusplus
}
#endif

#endif
