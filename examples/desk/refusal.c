/* Refusals in words, and a mark under the place of a question that they point at. */
#include "desk.h"

#include <inttypes.h>
#include <stdio.h>
#include <string.h>

/* What each refusal says; where it has %, the value is put there. */
static const char *const SAID[] = {
    [NABURAIN_INDEX_LENGTH] = "an index has 20 to 16,777,216 bytes, this file has %" PRIu64,
    [NABURAIN_INDEX_EDITION] = "the index is of edition %" PRIu64 ", and only edition 1 is known",
    [NABURAIN_INDEX_TRAILER] = "the trailer of the index is damaged",
    [NABURAIN_INDEX_ENTRY] = "the directory of the index is damaged at entry %" PRIu64,
    [NABURAIN_INDEX_LIST] = "the list of entry %" PRIu64 " is damaged",
    [NABURAIN_QUESTION_LENGTH] = "a question has up to 256 bytes, this one has %" PRIu64,
    [NABURAIN_QUESTION_BYTE] = "only letters A to Z, digits, spaces and brackets can be asked",
    [NABURAIN_QUESTION_WORD] = "a word has up to 32 letters",
    [NABURAIN_GRAMMAR] = "this cannot stand here",
    [NABURAIN_WORDS] = "a question has up to 16 words, and this is the 17th",
    [NABURAIN_BRACKETS] = "up to 8 brackets can be open, and this is the ninth",
    [NABURAIN_ROOM] = "there is no room for %" PRIu64,
    [NABURAIN_LISTS] = "1 to 16 lists can be joined, not %" PRIu64,
    [NABURAIN_ENTRY] = "the index has no such entry",
    [NABURAIN_NUMBER] = "a record number is 0 or too large (number %" PRIu64 " of all, from 0)",
    [NABURAIN_INTERVAL] = "interval %" PRIu64 " is not proper",
    [NABURAIN_BUILD_WORD] = "word %" PRIu64 " (from 0) cannot be built: 1 to 32 letters or digits, no operator in any spelling, at most 65,535 words",
    [NABURAIN_BUILD_COUNT] = "count %" PRIu64 " does not agree with words and numbers",
    [NABURAIN_BUILD_SIZE] = "the index would be over 16,777,216 bytes",
    [NABURAIN_PROBE] = "a probe goes from a to b, 1 to 16,777,215",
    [NABURAIN_NO_WORD] = "the index does not have this word; it would be entry %" PRIu64,
    [NABURAIN_RULE] = "there is no rule %" PRIu64 ", only rule 1 and rule 2",
};

void explain(uint64_t refusal, uint64_t value)
{
    const char *said = "unknown";
    if (refusal < sizeof SAID / sizeof SAID[0] && SAID[refusal] != NULL) {
        said = SAID[refusal];
    }
    if (refusal == NABURAIN_BUILD_SIZE && value == 0) {
        said = "the highest record is above 16,777,215";
    }
    printf("refused (%" PRIu64 "): ", refusal);
    printf(said, value);
    printf("\n");
}

static int points_into_question(uint64_t refusal)
{
    return refusal >= NABURAIN_QUESTION_BYTE && refusal <= NABURAIN_BRACKETS;
}

/* The question with one column for each byte, and the mark below. */
static void mark(const char *question, uint64_t place)
{
    size_t length = strlen(question);
    printf("  ");
    for (size_t i = 0; i < length; i++) {
        putchar(question[i] >= 32 && question[i] < 127 ? question[i] : '?');
    }
    printf("\n  %*s\n", (int)place + 1, "^");
}

enum ended explain_question(const char *question, uint64_t refusal, uint64_t value)
{
    if (points_into_question(refusal)) {
        mark(question, value);
    }
    if (refusal == NABURAIN_GRAMMAR && value == strlen(question)) {
        printf("refused (%d): the question ends too soon\n", NABURAIN_GRAMMAR);
    } else {
        explain(refusal, value);
    }
    return REFUSED;
}
