/* Asks a question and shows its answer: how many records, and their stretches. */
#include "desk.h"

#include <inttypes.h>
#include <stdio.h>
#include <stdlib.h>
#include <string.h>

enum { FIRST_ROOM = 1024, SHOWN = 60, WIDTH = 76 };

/* Writes one stretch on a line that is `used` columns long, on a new line where it does not fit. */
static int show_stretch(uint32_t l, uint32_t u, int used)
{
    char text[32];
    int length = l == u ? snprintf(text, sizeof text, "%" PRIu32, l) : snprintf(text, sizeof text, "%" PRIu32 "-%" PRIu32, l, u);
    if (used + length + 2 > WIDTH) {
        printf("\n ");
        used = 1;
    }
    printf(" %s", text);
    return used + length + 1;
}

static void show_answer(const struct naburain_answered *answer, const uint32_t *cells)
{
    if (answer->intervals == 0) {
        printf("no records\n");
        return;
    }
    printf("%" PRIu64 " %s in %" PRIu64 " %s\n ", answer->records, answer->records == 1 ? "record" : "records", answer->intervals,
           answer->intervals == 1 ? "stretch" : "stretches");
    int used = 1;
    for (uint64_t i = 0; i < answer->intervals && i < SHOWN; i++) {
        used = show_stretch(cells[2 * i], cells[2 * i + 1], used);
    }
    if (answer->intervals > SHOWN) {
        printf("\n  and %" PRIu64 " more", answer->intervals - SHOWN);
    }
    printf("\n");
}

enum ended answer_question(const struct mapped *index, uint32_t rule, const char *question)
{
    size_t room = FIRST_ROOM, length = strlen(question);
    uint32_t *cells = grown(NULL, room, sizeof *cells);
    const uint8_t *asked = (const uint8_t *)question;
    struct naburain_answered answer = naburain_ask(index->bytes, index->length, rule, asked, length, cells, room);
    if (answer.refusal == NABURAIN_ROOM) { /* its value is what the answer needs */
        room = 2 * (size_t)answer.value;
        cells = grown(cells, room, sizeof *cells);
        answer = naburain_ask(index->bytes, index->length, rule, asked, length, cells, room);
    }
    enum ended ended = ANSWERED;
    if (answer.refusal == 0) {
        show_answer(&answer, cells);
    } else {
        ended = explain_question(question, answer.refusal, answer.value);
    }
    free(cells);
    return ended;
}

/* Questions from standard input, one a line, until it ends. Where the index or the rule is refused, that is said before any: with good ones the
 * empty question is refused by its grammar. */
enum ended prompt(const struct mapped *index, uint32_t rule)
{
    struct naburain_answered empty = naburain_ask(index->bytes, index->length, rule, NULL, 0, NULL, 0);
    if (empty.refusal != NABURAIN_GRAMMAR) {
        explain(empty.refusal, empty.value);
        return REFUSED;
    }
    char *line = NULL;
    size_t room = 0;
    printf("? ");
    fflush(stdout);
    while (getline(&line, &room, stdin) >= 0) {
        line[strcspn(line, "\n")] = 0;
        answer_question(index, rule, line);
        printf("? ");
        fflush(stdout);
    }
    printf("\n");
    free(line);
    return ANSWERED;
}
