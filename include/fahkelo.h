/*
 * Fahkelo for C and C++: the shortest runs of a finite model. A run is an accepting path: it starts at the initial state
 * and repeats, from some place on, a loop with a marked state.
 *
 * Build the library with `make target/staticlib/libcapi.a` and link that file (x86-64 Linux).
 *
 * Tables. Each table is given as a pointer and a number of entries. Any lengths and any contents are allowed, and any
 * bytes as the file: what does not fit is refused with a number. A pointer whose length is 0 may be NULL; nothing is read
 * or written through it. Every other pointer must lead to so many entries, aligned as C aligns their type: 16-bit
 * ones at even addresses, those of size_t at multiples of 8. The tables that a call writes (answer, distances, place,
 * work, output, out) must not overlap each other, nor a table that the call reads; those that it only reads may
 * overlap. The library keeps nothing between two calls and allocates nothing; calls on tables of their own may run at
 * the same time.
 *
 *   file     the bytes of a model file, at most FAHKELO_FILE_MOST (docs/FORMAT.md). Where bytes 6 and 7 are 1, a state
 *            without edges stays where it is: it has an implied step to itself. The file has one mark table or two
 *   work     working table: 6 entries for each state of the model, FAHKELO_WORK_MOST for every model. Untouched after
 *            the refusals 1 to 12 and after FAHKELO_OUT_TOO_SHORT; after every other value, the refusal 22 among them, all
 *            its entries are zero
 *   answer   the run that is found: entries 0 to L, a run of L transitions having L + 1 states. The run starts at entry 0;
 *            from entry k on it repeats for ever, and entry L equals entry k. FAHKELO_ANSWER_MOST entries do for every
 *            model. Entries past L never change, and no entry does unless the answer is FAHKELO_FOUND
 *   distances
 *            the distances from the initial state, entry s for state s; FAHKELO_STATES_MOST entries do for every model.
 *            Entries past the last state's never change, and no entry does unless the answer is FAHKELO_WRITTEN
 *   place    the first place where a list that is graded leaves the model, at entry 0; at least one entry. Entry 0 changes
 *            only if there is such a place, later entries never
 *   output   the model file that fahkelo_combine writes, from byte 0 on; it has one mark table, and FAHKELO_COMBINED_MOST
 *            bytes do for every result. Bytes past the file never change, and no byte does unless the answer is
 *            FAHKELO_WRITTEN
 *   out      the figures of the answer: at least FAHKELO_OUT_ENTRIES entries. Entries past the figures never change, and
 *            no entry does after a refusal
 *
 * Mark table. fahkelo_step, fahkelo_search, fahkelo_next and fahkelo_grade name one of the file's mark tables, 0 or 1, and
 * all that they answer is about its marks; what the other one marks changes nothing. In a file with one mark table, table 1
 * holds no marks. A number above 1 is refused with 22, before the file is looked at, and the working table is all zero then.
 * fahkelo_distances uses no marks, fahkelo_combine none of the rule's.
 *
 * Ceiling. fahkelo_step, fahkelo_search and fahkelo_distances take one, 0 to FAHKELO_CEILING_MOST: what is longer does
 * not count. With FAHKELO_CEILING_MOST everything counts, since no shortest run and no distance of any model is longer.
 * A ceiling above it is refused with 21.
 *
 * Answers. What a call returns tells by itself what happened. A value below FAHKELO_KINDS_FROM, `kind < 100`, is a refusal:
 * the value is the number of the first reason that holds, 1 to 18, 21 or 22 (docs/REFUSALS.md), and out, answer, distances,
 * place and output are not changed.
 * Every other value is a kind of answer, whose figures are in out, from entry 0 on:
 *
 *   FAHKELO_OUT_TOO_SHORT   (none)              out has fewer than FAHKELO_OUT_ENTRIES entries, or place, where one is lent,
 *                                               has none; nothing at all was done
 *   FAHKELO_STOPPED         rounds, has, best   the allowance is less than the number of rounds of this model
 *   FAHKELO_FOUND           L, k, rounds        (from fahkelo_next: L, k)
 *   FAHKELO_NONE_WITHIN     rounds              the model has no run of as many transitions as the ceiling or fewer
 *   FAHKELO_NO_MORE         (none)              the earlier list is the last one
 *   FAHKELO_FINISHED        done, has, best     no round is left: the record that was given
 *   FAHKELO_ADVANCED        done, has, best     the record after one more round
 *   FAHKELO_WRITTEN         bytes               the model file has so many bytes (from fahkelo_distances: states, the
 *                                               number of entries written)
 *   FAHKELO_FALSE           has                 the list with that k is no run
 *   FAHKELO_ACCEPTING       has                 it is one, and a shorter one exists
 *   FAHKELO_SHORTEST        has                 it is one, and none is shorter
 *
 * In the figures of a record `has` is 1 if there is a best length, and 0 if there is none; then `best` is 0. The one figure
 * of a grade is 1 if the list leaves the model somewhere, and then place[0] says where; else it is 0.
 */
#ifndef FAHKELO_H
#define FAHKELO_H

#include <stddef.h>
#include <stdint.h>

/* Raised whenever a declaration or a number of this file changes: a caller can ask for the one that it was written for. */
#define FAHKELO_INTERFACE 6

/* The kinds of answer start here; what is below is the number of a refusal. */
#define FAHKELO_KINDS_FROM 100

/* The kinds of answer. */
#define FAHKELO_OUT_TOO_SHORT 100
#define FAHKELO_STOPPED 101
#define FAHKELO_FOUND 102
#define FAHKELO_NONE_WITHIN 103
#define FAHKELO_NO_MORE 104
#define FAHKELO_FINISHED 105
#define FAHKELO_ADVANCED 106
#define FAHKELO_WRITTEN 107
#define FAHKELO_FALSE 108
#define FAHKELO_ACCEPTING 109
#define FAHKELO_SHORTEST 110

/* The highest ceiling, and the entry of a state that has no distance up to the ceiling. */
#define FAHKELO_CEILING_MOST 4096
#define FAHKELO_NOT_REACHED 65535

/* The entries that out must have, and the table sizes that do for every model. */
#define FAHKELO_OUT_ENTRIES 4
#define FAHKELO_STATES_MOST 4096
#define FAHKELO_FILE_MOST 25626
#define FAHKELO_COMBINED_MOST 25114
#define FAHKELO_PROPERTY_MOST 41498
#define FAHKELO_WORK_MOST 24576
#define FAHKELO_ANSWER_MOST 4097

#ifdef __cplusplus
extern "C" {
#endif

/*
 * One round. The record given is the rounds done and the best length so far; every has_best but 0 says that there is a
 * best length, and with 0 the number best is not looked at. A search starts from done 0 and has_best 0. A length above
 * the ceiling does not count as found; a best length that is given, also one above the ceiling, is kept until a shorter
 * one is found. There is a round for each state that the mark table marks and that can be reached.
 * Returns a refusal (22, 1 to 12, 21, in this order), FAHKELO_FINISHED, FAHKELO_ADVANCED or FAHKELO_OUT_TOO_SHORT.
 */
uint16_t fahkelo_step(const uint8_t *file, size_t file_len,
                      uint16_t mark_table, uint16_t ceiling,
                      uint16_t done, uint8_t has_best, uint16_t best,
                      uint16_t *work, size_t work_len,
                      uint16_t *out, size_t out_len);

/*
 * The first of the shortest runs in dictionary order, if they are not longer than the ceiling, with at most
 * `allowance` rounds; 65535 is enough for every model. The number of rounds does not depend on the ceiling.
 * Returns a refusal (22, 1 to 12, 21, 14, 15, in this order), FAHKELO_STOPPED, FAHKELO_FOUND with the run in answer,
 * FAHKELO_NONE_WITHIN or FAHKELO_OUT_TOO_SHORT.
 */
uint16_t fahkelo_search(const uint8_t *file, size_t file_len,
                        uint16_t mark_table, uint16_t ceiling, uint16_t allowance,
                        uint16_t *answer, size_t answer_len,
                        uint16_t *work, size_t work_len,
                        uint16_t *out, size_t out_len);

/*
 * The shortest run that follows an earlier one in dictionary order. `earlier` is a copy of all L + 1 entries of
 * a run that fahkelo_search or fahkelo_next found by the same mark table; a list that is no shortest run by this table is
 * refused with 13. There is no ceiling: the run has as many transitions as the earlier one.
 * Returns a refusal (22, 1 to 15, in this order), FAHKELO_FOUND with the run in answer, FAHKELO_NO_MORE or
 * FAHKELO_OUT_TOO_SHORT.
 */
uint16_t fahkelo_next(const uint8_t *file, size_t file_len,
                      uint16_t mark_table,
                      const uint16_t *earlier, size_t earlier_len,
                      uint16_t *answer, size_t answer_len,
                      uint16_t *work, size_t work_len,
                      uint16_t *out, size_t out_len);

/*
 * Grades a list that somebody claims to be a run: its states, and the place k, counted from 0, where its loop is said
 * to start. Nothing of it is trusted; the list may have any length and any entries, and k may be any number.
 * It is a run if it has the entries 0 to L, with L at least 1 and k below L; entry 0 is the state where the model
 * starts; an edge or an implied step leads from each entry to the next; entry L equals entry k; one of the entries k to
 * L - 1 is marked; and the entries 0 to L - 1 are all different. It is a shortest one if no run has fewer entries.
 * Both are about the marks of the table that is named.
 * The list leaves the model at a place if the entry there is no state or, past place 0, if no edge and no implied step leads
 * to it from the entry before. If there is such a place, out[0] is 1, place[0] is the first one, counted from 0, and the
 * grade is FAHKELO_FALSE; else out[0] is 0 and place is not changed. The place does not depend on the marks.
 * Returns a refusal (22, 1 to 12, in this order), FAHKELO_FALSE, FAHKELO_ACCEPTING, FAHKELO_SHORTEST or
 * FAHKELO_OUT_TOO_SHORT.
 */
uint16_t fahkelo_grade(const uint8_t *file, size_t file_len,
                       uint16_t mark_table,
                       const uint16_t *list, size_t list_len,
                       uint16_t k,
                       size_t *place, size_t place_len,
                       uint16_t *work, size_t work_len,
                       uint16_t *out, size_t out_len);

/*
 * The distances from the initial state: for each state the least number of transitions that lead to it, 0 for the
 * initial state, if that is not above the ceiling; else FAHKELO_NOT_REACHED.
 * Returns a refusal (1 to 12, 21, last 15 if `distances` has fewer entries than the model has states), FAHKELO_WRITTEN
 * with the number of states, or FAHKELO_OUT_TOO_SHORT.
 */
uint16_t fahkelo_distances(const uint8_t *file, size_t file_len,
                           uint16_t ceiling,
                           uint16_t *distances, size_t distances_len,
                           uint16_t *work, size_t work_len,
                           uint16_t *out, size_t out_len);

/*
 * Combines a rule with a property: a model file whose paths are the pairs of a path of the rule and a path of the property
 * that agree on letters, and whose marks are the property's. The rule is a model file with one mark table or two; letters
 * has one byte for each of its states, a letter 0 to 15; the property is a model file with one mark table and a 16-bit mask
 * for each edge after its marks, bit l for letter l (docs/FORMAT.md), at most FAHKELO_PROPERTY_MOST bytes.
 * State (s, q) of the result has the number s * Q + q, where the property has Q states. It has an edge to (s', q') exactly
 * if s has one to s' and q has one to q' whose mask holds the letter of s. It is marked if q is; the marks of the rule are
 * not used. An implied step of the rule counts as an edge, one of the property never does. Bytes 6 and 7 of the result
 * are 0, and it has one mark table.
 * Returns a refusal (the rule's 1 to 11; 16 for the letters, 17 for the property, 18 for a result that is too large, last
 * 15 for an output that is too short), FAHKELO_WRITTEN with the file in output, or FAHKELO_OUT_TOO_SHORT.
 */
uint16_t fahkelo_combine(const uint8_t *rule, size_t rule_len,
                         const uint8_t *letters, size_t letters_len,
                         const uint8_t *property, size_t property_len,
                         uint8_t *output, size_t output_len,
                         uint16_t *out, size_t out_len);

#ifdef __cplusplus
}
#endif

#endif
