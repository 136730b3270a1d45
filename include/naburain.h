/* Naburain: the records of words as intervals, kept in an index, and questions over it.
 * docs/REFERENCE.md says in full what each call does; "Reference" with a number is that section of it.
 *
 * Every call takes numbers and slices (a pointer, then its length) and returns a struct of 64-bit numbers by value.
 * `refusal` is 0 where the call answers, else the number of the refusal (the NABURAIN_.. names below), and `value` is what
 * that refusal reports; the other fields are then 0. Where the call answers, `value` is 0.
 * A refused call writes nothing. A call that answers writes from the start of the slice lent to it exactly what it reports, and leaves
 * the rest of that slice as it was.
 *
 * Every call that takes an index checks all of it first: 1, 2, 3, 4, 5 in this order, and the first that holds is returned.
 *
 * What the caller owes: a slice of length k has k readable elements (writable, where it is lent to be written), aligned for their type; a slice
 * that is written overlaps no other; nobody changes a slice while the call runs; there are 48 KiB of stack. With length 0 the pointer is not followed,
 * and may be null.
 * Nothing is kept between calls and nothing is allocated, so calls from several threads do not disturb each other. */
#ifndef NABURAIN_H
#define NABURAIN_H

#include <stddef.h>
#include <stdint.h>

#ifdef __cplusplus
extern "C" {
#endif

/* Limits: Reference 1. */
#define NABURAIN_RECORD_MAX 16777215u   /* largest record number, and largest N */
#define NABURAIN_INDEX_MIN 20u          /* bytes of an index */
#define NABURAIN_INDEX_MAX 16777216u
#define NABURAIN_WORDS_MAX 65535u       /* words in an index */
#define NABURAIN_WORD_MAX 32u           /* bytes of a word */
#define NABURAIN_QUESTION_MAX 256u      /* bytes of a question */
#define NABURAIN_QUESTION_WORDS_MAX 16u /* words of a question, a repeated one each time */
#define NABURAIN_BRACKETS_MAX 8u        /* open brackets at one place of a question */
#define NABURAIN_JOIN_MAX 16u           /* lists of one join */

/* Refusals, and their values: Reference 9.1. Places and numbers are counted from 0; of several places the first is reported. */
#define NABURAIN_INDEX_LENGTH 1    /* the index is too short or too long: how many bytes it has */
#define NABURAIN_INDEX_EDITION 2   /* another edition than 1: which */
#define NABURAIN_INDEX_TRAILER 3   /* the trailer breaks its rule: 0 */
#define NABURAIN_INDEX_ENTRY 4     /* an entry breaks its rules: the first that does; n where lists or words merely stop short */
#define NABURAIN_INDEX_LIST 5      /* a list breaks the list rule: the first entry with such a list */
#define NABURAIN_QUESTION_LENGTH 6 /* the question is too long: how many bytes it has */
#define NABURAIN_QUESTION_BYTE 7   /* a byte that is no letter, digit, space or round bracket: its place */
#define NABURAIN_QUESTION_WORD 8   /* a run of more than 32 letters and digits: where it begins */
#define NABURAIN_GRAMMAR 9         /* a token that cannot stand there, or an early end: where the token begins, or the question's length */
#define NABURAIN_WORDS 10          /* one word too many: where it begins */
#define NABURAIN_BRACKETS 11       /* one open bracket too many: its place */
#define NABURAIN_ROOM 12           /* too little room: how many intervals, numbers or bytes the answer has */
#define NABURAIN_LISTS 13          /* a join of no list, or of more than 16: of how many */
#define NABURAIN_ENTRY 14          /* the index has no such entry: its place among the entries of a join, else 0 */
#define NABURAIN_NUMBER 15         /* a number that is 0, too large, or no larger than its predecessor: its place */
#define NABURAIN_INTERVAL 16       /* the cells are no proper list: the first bad interval */
#define NABURAIN_BUILD_WORD 17     /* a word to build is none (`AND` is none), out of order, without its byte 10, or one too many: its number */
#define NABURAIN_BUILD_COUNT 18    /* counts to build: the first bad one; the word count where counts or numbers are left */
#define NABURAIN_BUILD_SIZE 19     /* N is too large: 0; the index would be too long: 1 */
#define NABURAIN_PROBE 20          /* no range to probe: 0 */
#define NABURAIN_NO_WORD 21        /* no entry has the word looked up: the number of the entry that it would be */
#define NABURAIN_RULE 22           /* another rule than 1 or 2: its number */

struct naburain_checked {
    uint64_t refusal;
    uint64_t value;
};

struct naburain_found {
    uint64_t refusal;
    uint64_t value;
    uint64_t entry;
};

struct naburain_part {
    uint64_t refusal;
    uint64_t value;
    uint64_t start;
    uint64_t length;
};

struct naburain_probed {
    uint64_t refusal;
    uint64_t value;
    uint64_t below;
    uint64_t overlapping;
};

struct naburain_answered {
    uint64_t refusal;
    uint64_t value;
    uint64_t intervals;
    uint64_t records;
};

struct naburain_written {
    uint64_t refusal;
    uint64_t value;
    uint64_t written;
};

/* Reference 8.1. Whether the index is sound. Refusals 1 to 5. */
struct naburain_checked naburain_check(const uint8_t *index, size_t index_length);

/* Reference 8.2. The number, counted from 0, of the entry whose word has just these bytes. Any bytes may be looked up, none too.
 * Refusals 1 to 5, then 21 where no entry has them: `value` is then how many words of the index stand before them, so that the entries around the
 * place where they would stand are value - 1 and value; it is 0 before the first word, and the number of words behind the last. */
struct naburain_found naburain_lookup(const uint8_t *index, size_t index_length, const uint8_t *word, size_t word_length);

/* Reference 8.3. The word of an entry, as a part of the index: `length` bytes from byte `start`.
 * Refusals 1 to 5, then 14 with 0. */
struct naburain_part naburain_word(const uint8_t *index, size_t index_length, uint32_t entry);

/* Reference 8.4. How many intervals of the entry's list end before a, and how many have a number in common with [a, b].
 * Refusals 1 to 5, 14 with 0, then 20 unless 1 <= a <= b <= NABURAIN_RECORD_MAX. */
struct naburain_probed naburain_probe(const uint8_t *index, size_t index_length, uint32_t entry, uint32_t a, uint32_t b);

/* Reference 8.5. The union of the lists of the entries, each of which may be given more than once: its intervals from the first cell on,
 * two cells each, l then u. Two methods, one answer: a scan over all bounds, and one that carries an active interval.
 * `intervals` is how many were written, `records` how many record numbers they name.
 * Refusals 1 to 5, 13, 14, then 12 where cells_length / 2 is below the number of intervals. */
struct naburain_answered naburain_union_scan_line(const uint8_t *index, size_t index_length, const uint32_t *entries, size_t entries_length,
                                                  uint32_t *cells, size_t cells_length);
struct naburain_answered naburain_union_active_interval(const uint8_t *index, size_t index_length, const uint32_t *entries,
                                                        size_t entries_length, uint32_t *cells, size_t cells_length);

/* Reference 8.5. The intersection of the lists of the entries, written and reported as a union is.
 * Two methods, one answer: the twin heap, and probes of the other lists by the intervals of the shortest.
 * Refusals 1 to 5, 13, 14, then 12 where cells_length / 2 is below the number of intervals. */
struct naburain_answered naburain_intersection_twin_heap(const uint8_t *index, size_t index_length, const uint32_t *entries,
                                                         size_t entries_length, uint32_t *cells, size_t cells_length);
struct naburain_answered naburain_intersection_probing(const uint8_t *index, size_t index_length, const uint32_t *entries,
                                                       size_t entries_length, uint32_t *cells, size_t cells_length);

/* Reference 8.6. The records that satisfy a question, written and reported as a union is. A question has words, round brackets, and the
 * operators `and`, `or` and `not`, in any mixture of small and capital letters; they stand between two sides (`a not b` leaves b out of
 * a). `rule` is the number of the rule by which what stands in a row is grouped. By rule 1 the operators have the same rank, by rule 2 `and` and
 * `not` a higher one than `or`; equal ranks are grouped from the left: `a or b and c not d` is `((a or b) and c) not d` by rule 1, and
 * `a or ((b and c) not d)` by rule 2. A word without an entry is in no record. What is found on the way to the answer needs no room.
 * Refusals 1 to 5, 22, then 6, 7, 8, each over the whole question, then that of 9, 10 and 11 which comes first from the left, whichever the
 * rule, then 12. */
struct naburain_answered naburain_ask(const uint8_t *index, size_t index_length, uint32_t rule, const uint8_t *question, size_t question_length,
                                      uint32_t *cells, size_t cells_length);

/* Reference 8.7. Ascending record numbers as the intervals that name them, two cells each, l then u; `written` counts intervals.
 * Refusals 15 with the limit NABURAIN_RECORD_MAX, then 12 where cells_length / 2 is below the number of intervals. */
struct naburain_written naburain_to_intervals(const uint32_t *numbers, size_t numbers_length, uint32_t *cells, size_t cells_length);

/* Reference 8.8. The record numbers that a proper list of intervals names, ascending; `written` counts numbers.
 * Refusals 16, also for a last cell without a second, then 12 where numbers_length is below the number of records. */
struct naburain_written naburain_to_numbers(const uint32_t *cells, size_t cells_length, uint32_t *numbers, size_t numbers_length);

/* Reference 8.9. Builds an index of records 1 to highest (N): `words` has the words in ascending order, with a byte 10 behind each; `counts`
 * says for each word how many records it has; `numbers` has these, the first word's first, ascending for each word. `written` counts the
 * bytes of the index.
 * Refusals 19 with 0 for N, 17, 18, 15 with the limit N, 19 with 1 for the index's size, then 12. */
struct naburain_written naburain_build(uint32_t highest, const uint8_t *words, size_t words_length, const uint32_t *counts,
                                       size_t counts_length, const uint32_t *numbers, size_t numbers_length, uint8_t *bytes,
                                       size_t bytes_length);

#ifdef __cplusplus
}
#endif

#endif
