/* Prints the rounds, a refused step, all shortest runs by each mark table, a search under a ceiling, the distances and four
 * grades of one model, and the shortest run of a rule combined with a property, through the C interface (docs/CAPI.md). */
#include <stdio.h>
#include <string.h>

#include "fahkelo.h"

#if FAHKELO_INTERFACE != 6
#error "this example was written for interface 6"
#endif

/* Five states, 0 to 1 and 2, 1 to 3, 2 to 3, 3 to 1 and 2, 4 to 4; the run starts at 0. Mark table 0 marks 3 and 4, mark
 * table 1 marks 1. */
static const uint8_t model[] = {
    5, 0, 7, 0, 0, 0, 0, 0, 24, 0, 0, 0, 36, 0, 0, 0, 50, 0, 0, 0, 52, 0, 0, 0, /* header */
    0, 0, 2, 0, 3, 0, 4, 0, 6, 0, 7, 0,                                         /* row table */
    1, 0, 2, 0, 3, 0, 3, 0, 1, 0, 2, 0, 4, 0,                                   /* edge table */
    24, 2};                                                                     /* marks, table 0 and table 1 */

/* Lists that are graded: a run that is not of least length, and a list that leaves the model, which has no state 5. */
static const uint16_t longer[] = {0, 1, 3, 2, 3};
static const uint16_t broken[] = {0, 1, 5};

/* A rule: 0 to 1, 1 to 0; no mark. Its states have the letters 0 and 1. */
static const uint8_t rule[] = {
    2, 0, 2, 0, 0, 0, 0, 0, 24, 0, 0, 0, 30, 0, 0, 0, 34, 0, 0, 0, 35, 0, 0, 0, /* header */
    0, 0, 1, 0, 2, 0,                                                           /* row table */
    1, 0, 0, 0,                                                                 /* edge table */
    0};                                                                         /* marks */
static const uint8_t letters[] = {0, 1};

/* A property: letter 0 leads to 0, letter 1 to 1, from both states; 1 is marked. */
static const uint8_t property[] = {
    2, 0, 4, 0, 0, 0, 0, 0, 24, 0, 0, 0, 30, 0, 0, 0, 38, 0, 0, 0, 47, 0, 0, 0, /* header */
    0, 0, 2, 0, 4, 0,                                                           /* row table */
    0, 0, 1, 0, 0, 0, 1, 0,                                                     /* edge table */
    2,                                                                          /* marks */
    1, 0, 2, 0, 1, 0, 2, 0};                                                    /* masks */

static uint8_t combined[FAHKELO_COMBINED_MOST];
static uint16_t work[FAHKELO_WORK_MOST];
static uint16_t answer[FAHKELO_ANSWER_MOST];
static uint16_t earlier[FAHKELO_ANSWER_MOST];
static uint16_t distances[FAHKELO_STATES_MOST];
static uint16_t out[FAHKELO_OUT_ENTRIES];

/* Prints the length, the place where the loop starts and the states of the run that was found. */
static void print_run(void)
{
    size_t i;
    printf("length %u, loop from place %u:", (unsigned)out[0], (unsigned)out[1]);
    for (i = 0; i <= out[0]; i++)
        printf(" %u", (unsigned)answer[i]);
    printf("\n");
}

/* Looks for runs of at most 2 transitions, of which there are none. */
static int print_ceiling(void)
{
    uint16_t kind = fahkelo_search(model, sizeof model, 0, 2, 65535, answer, FAHKELO_ANSWER_MOST,
                                   work, FAHKELO_WORK_MOST, out, FAHKELO_OUT_ENTRIES);
    if (kind != FAHKELO_NONE_WITHIN)
        return 0;
    printf("none within 2, rounds %u\n", (unsigned)out[0]);
    return 1;
}

/* Prints the distance of each state from the initial state. */
static int print_distances(void)
{
    size_t s;
    uint16_t kind = fahkelo_distances(model, sizeof model, FAHKELO_CEILING_MOST, distances, FAHKELO_STATES_MOST,
                                      work, FAHKELO_WORK_MOST, out, FAHKELO_OUT_ENTRIES);
    if (kind != FAHKELO_WRITTEN)
        return 0;
    printf("distances:");
    for (s = 0; s < out[0]; s++)
        printf(" %u", (unsigned)distances[s]);
    printf("\n");
    return 1;
}

/* Grades a list whose loop is said to start at place k, and prints the kind and the place where it leaves the model. */
static void print_grade(uint16_t mark_table, const uint16_t *list, size_t entries, uint16_t k)
{
    size_t place;
    uint16_t kind = fahkelo_grade(model, sizeof model, mark_table, list, entries, k, &place, 1,
                                  work, FAHKELO_WORK_MOST, out, FAHKELO_OUT_ENTRIES);
    printf("grade: kind %u", (unsigned)kind);
    if (kind > FAHKELO_KINDS_FROM && out[0] == 1)
        printf(", leaves the model at place %lu", (unsigned long)place);
    printf("\n");
}

/* Grades the first shortest run by table 0, a longer one, which is no run by table 1, and a list that is no run at all. */
static int print_grades(void)
{
    uint16_t kind = fahkelo_search(model, sizeof model, 0, FAHKELO_CEILING_MOST, 65535, answer, FAHKELO_ANSWER_MOST,
                                   work, FAHKELO_WORK_MOST, out, FAHKELO_OUT_ENTRIES);
    if (kind != FAHKELO_FOUND)
        return 0;
    print_grade(0, answer, (size_t)out[0] + 1, out[1]);
    print_grade(0, longer, sizeof longer / sizeof *longer, 2);
    print_grade(1, longer, sizeof longer / sizeof *longer, 2);
    print_grade(0, broken, sizeof broken / sizeof *broken, 0);
    return 1;
}

/* Combines the rule with the property, and prints the first shortest run of the result. State c of the result is the pair
 * of state c / 2 of the rule and state c % 2 of the property, which has two states. */
static int print_combined(void)
{
    uint16_t kind, bytes;
    kind = fahkelo_combine(rule, sizeof rule, letters, sizeof letters, property, sizeof property,
                           combined, sizeof combined, out, FAHKELO_OUT_ENTRIES);
    if (kind != FAHKELO_WRITTEN)
        return 0;
    bytes = out[0];
    printf("combined: %u bytes\n", (unsigned)bytes);
    kind = fahkelo_search(combined, bytes, 0, FAHKELO_CEILING_MOST, 65535, answer, FAHKELO_ANSWER_MOST,
                          work, FAHKELO_WORK_MOST, out, FAHKELO_OUT_ENTRIES);
    if (kind != FAHKELO_FOUND)
        return 0;
    print_run();

    /* An output that is one byte too short is refused, and not written to. */
    combined[0] = 255;
    kind = fahkelo_combine(rule, sizeof rule, letters, sizeof letters, property, sizeof property,
                           combined, (size_t)(bytes - 1), out, FAHKELO_OUT_ENTRIES);
    printf("refused with %u, first byte %u\n", (unsigned)kind, (unsigned)combined[0]);
    return 1;
}

/* Prints all shortest runs by a mark table: the first one, and then the one after each. Returns the last answer. */
static uint16_t print_runs(uint16_t mark_table)
{
    uint16_t kind = fahkelo_search(model, sizeof model, mark_table, FAHKELO_CEILING_MOST, 65535,
                                   answer, FAHKELO_ANSWER_MOST, work, FAHKELO_WORK_MOST, out, FAHKELO_OUT_ENTRIES);
    while (kind == FAHKELO_FOUND) {
        size_t entries = (size_t)out[0] + 1;
        print_run();
        memcpy(earlier, answer, entries * sizeof *answer);
        kind = fahkelo_next(model, sizeof model, mark_table, earlier, entries, answer, FAHKELO_ANSWER_MOST,
                            work, FAHKELO_WORK_MOST, out, FAHKELO_OUT_ENTRIES);
    }
    printf("table %u ended with %u\n", (unsigned)mark_table, (unsigned)kind);
    return kind;
}

int main(void)
{
    uint16_t kind;

    /* One round at a time: each record goes into the next step as it came out. */
    memset(out, 0, sizeof out);
    do {
        kind = fahkelo_step(model, sizeof model, 0, FAHKELO_CEILING_MOST, out[0], (uint8_t)out[1], out[2],
                            work, FAHKELO_WORK_MOST, out, FAHKELO_OUT_ENTRIES);
        printf("step: kind %u, rounds %u, has best %u, best %u\n", (unsigned)kind,
               (unsigned)out[0], (unsigned)out[1], (unsigned)out[2]);
    } while (kind == FAHKELO_ADVANCED);

    /* A refused call changes nothing: the record is still in out. Here the last byte of the file is missing. */
    kind = fahkelo_step(model, sizeof model - 1, 0, FAHKELO_CEILING_MOST, out[0], (uint8_t)out[1], out[2],
                        work, FAHKELO_WORK_MOST, out, FAHKELO_OUT_ENTRIES);
    if (kind < FAHKELO_KINDS_FROM)
        printf("refused with %u, rounds %u, has best %u, best %u\n", (unsigned)kind,
               (unsigned)out[0], (unsigned)out[1], (unsigned)out[2]);

    /* All shortest runs by each of the two mark tables. There is no table 2: the answer is the refusal 22. */
    if (print_runs(0) != FAHKELO_NO_MORE || print_runs(1) != FAHKELO_NO_MORE || print_runs(2) != 22)
        return 1;
    return print_ceiling() && print_distances() && print_grades() && print_combined() ? 0 : 1;
}
