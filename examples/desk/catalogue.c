/* Builds an index from plain text: a line for each word, `word: number number ..`, where a-b stands for all numbers from a to b.
 * Empty lines and lines that begin with # are skipped. Words and numbers may come in any order and more than once. */
#include "desk.h"

#include <ctype.h>
#include <errno.h>
#include <inttypes.h>
#include <stdio.h>
#include <stdlib.h>
#include <string.h>

/* A word with its numbers, as they were read. */
struct line {
    char *word;
    uint32_t *numbers;
    size_t count, room;
};

struct catalogue {
    struct line *lines;
    size_t count, room;
};

/* What naburain_build takes. */
struct lent {
    uint8_t *words;
    size_t words_length;
    uint32_t *counts, *numbers;
    size_t numbers_length;
};

static void add_number(struct line *line, uint32_t number)
{
    if (line->count == line->room) {
        line->room = 2 * line->room + 8;
        line->numbers = grown(line->numbers, line->room, sizeof *line->numbers);
    }
    line->numbers[line->count++] = number;
}

static struct line *add_line(struct catalogue *catalogue, const char *word, size_t length)
{
    if (catalogue->count == catalogue->room) {
        catalogue->room = 2 * catalogue->room + 8;
        catalogue->lines = grown(catalogue->lines, catalogue->room, sizeof *catalogue->lines);
    }
    struct line *line = &catalogue->lines[catalogue->count++];
    *line = (struct line){grown(NULL, length + 1, 1), NULL, 0, 0};
    memcpy(line->word, word, length);
    line->word[length] = 0;
    return line;
}

static int read_number(const char **at, uint32_t *number)
{
    if (!isdigit((unsigned char)**at)) {
        return 0;
    }
    char *end;
    errno = 0;
    unsigned long value = strtoul(*at, &end, 10);
    *at = end;
    *number = (uint32_t)value;
    return errno == 0 && value <= NABURAIN_RECORD_MAX;
}

/* The numbers behind the colon. */
static int read_numbers(struct line *line, const char *at)
{
    for (at += strspn(at, " \t\r\n"); *at != 0; at += strspn(at, " \t\r\n")) {
        uint32_t first, last;
        if (!read_number(&at, &first)) {
            return 0;
        }
        last = first;
        if (*at == '-') {
            at++;
            if (!read_number(&at, &last) || last < first) {
                return 0;
            }
        }
        for (uint32_t number = first; number <= last; number++) {
            add_number(line, number);
        }
        if (*at != 0 && strchr(" \t\r\n", *at) == NULL) {
            return 0;
        }
    }
    return line->count > 0;
}

static int read_text(FILE *text, const char *path, struct catalogue *catalogue)
{
    char *line = NULL;
    size_t room = 0, row = 0;
    int good = 1;
    while (good && getline(&line, &room, text) >= 0) {
        row++;
        const char *start = line + strspn(line, " \t\r\n");
        const char *colon = strchr(start, ':');
        if (*start == 0 || *start == '#') {
            continue;
        }
        good = colon != NULL && read_numbers(add_line(catalogue, start, (size_t)(colon - start)), colon + 1);
        if (!good) {
            fprintf(stderr, "desk: %s, line %zu: expected `word: number number-number ..`, numbers up to %u\n", path, row, NABURAIN_RECORD_MAX);
        }
    }
    free(line);
    return good;
}

static int by_word(const void *a, const void *b)
{
    return strcmp(((const struct line *)a)->word, ((const struct line *)b)->word);
}

static int by_number(const void *a, const void *b)
{
    uint32_t x = *(const uint32_t *)a, y = *(const uint32_t *)b;
    return (x > y) - (x < y);
}

/* Lines of the same word become one, and its numbers ascend, each once. */
static void sort_and_merge(struct catalogue *catalogue)
{
    size_t kept = 0;
    qsort(catalogue->lines, catalogue->count, sizeof *catalogue->lines, by_word);
    for (size_t i = 0; i < catalogue->count; i++) {
        struct line line = catalogue->lines[i];
        if (kept > 0 && strcmp(catalogue->lines[kept - 1].word, line.word) == 0) {
            for (size_t k = 0; k < line.count; k++) {
                add_number(&catalogue->lines[kept - 1], line.numbers[k]);
            }
            free(line.word), free(line.numbers);
        } else {
            catalogue->lines[kept++] = line;
        }
    }
    catalogue->count = kept;
    for (size_t i = 0; i < kept; i++) {
        struct line *line = &catalogue->lines[i];
        size_t once = 0;
        qsort(line->numbers, line->count, sizeof *line->numbers, by_number);
        for (size_t k = 0; k < line->count; k++) {
            if (once == 0 || line->numbers[once - 1] != line->numbers[k]) {
                line->numbers[once++] = line->numbers[k];
            }
        }
        line->count = once;
    }
}

static struct lent lay_out(const struct catalogue *catalogue)
{
    struct lent lent = {NULL, 0, grown(NULL, catalogue->count + 1, sizeof *lent.counts), NULL, 0};
    for (size_t i = 0; i < catalogue->count; i++) {
        lent.words_length += strlen(catalogue->lines[i].word) + 1;
        lent.numbers_length += catalogue->lines[i].count;
    }
    lent.words = grown(NULL, lent.words_length + 1, 1);
    lent.numbers = grown(NULL, lent.numbers_length + 1, sizeof *lent.numbers);
    size_t words = 0, numbers = 0;
    for (size_t i = 0; i < catalogue->count; i++) {
        const struct line *line = &catalogue->lines[i];
        size_t length = strlen(line->word);
        memcpy(lent.words + words, line->word, length);
        lent.words[words + length] = 10;
        words += length + 1;
        memcpy(lent.numbers + numbers, line->numbers, line->count * sizeof *line->numbers);
        numbers += line->count;
        lent.counts[i] = (uint32_t)line->count;
    }
    return lent;
}

static uint32_t highest_number(const struct lent *lent)
{
    uint32_t highest = 0;
    for (size_t i = 0; i < lent->numbers_length; i++) {
        highest = lent->numbers[i] > highest ? lent->numbers[i] : highest;
    }
    return highest;
}

/* Shows the word that a refusal speaks of, and its number. */
static void show_place(const struct catalogue *catalogue, const struct lent *lent, const struct naburain_written *built)
{
    if (built->refusal == NABURAIN_BUILD_WORD && built->value < catalogue->count) {
        printf("  %s\n", catalogue->lines[built->value].word);
    }
    if (built->refusal == NABURAIN_NUMBER) {
        uint64_t word = 0, end = lent->counts[0];
        while (end <= built->value) {
            end += lent->counts[++word];
        }
        printf("  %s: %" PRIu32 "\n", catalogue->lines[word].word, lent->numbers[built->value]);
    }
}

/* Asks for the size with no room, then builds. */
static enum ended build(const struct catalogue *catalogue, const struct lent *lent, uint32_t highest, const char *path)
{
    struct naburain_written built = naburain_build(highest, lent->words, lent->words_length, lent->counts, catalogue->count,
                                                   lent->numbers, lent->numbers_length, NULL, 0);
    if (built.refusal != NABURAIN_ROOM) {
        show_place(catalogue, lent, &built);
        explain(built.refusal, built.value);
        return REFUSED;
    }
    size_t length = (size_t)built.value;
    uint8_t *bytes = grown(NULL, length, 1);
    built = naburain_build(highest, lent->words, lent->words_length, lent->counts, catalogue->count, lent->numbers, lent->numbers_length,
                           bytes, length);
    enum ended ended = UNUSABLE;
    if (built.refusal != 0) {
        explain(built.refusal, built.value);
    } else if (write_file(path, bytes, length)) {
        printf("%s: %zu words, records 1 to %" PRIu32 ", %zu bytes\n", path, catalogue->count, highest, length);
        ended = ANSWERED;
    }
    free(bytes);
    return ended;
}

static void forget(struct catalogue *catalogue, struct lent *lent)
{
    for (size_t i = 0; i < catalogue->count; i++) {
        free(catalogue->lines[i].word), free(catalogue->lines[i].numbers);
    }
    free(catalogue->lines);
    free(lent->words), free(lent->counts), free(lent->numbers);
}

enum ended build_catalogue(const char *text_path, const char *index_path, const char *highest)
{
    struct catalogue catalogue = {NULL, 0, 0};
    struct lent lent = {NULL, 0, NULL, NULL, 0};
    enum ended ended = UNUSABLE;
    uint32_t n = 0;
    if (highest != NULL && !given_number(highest, &n)) {
        fprintf(stderr, "desk: %s is no record number\n", highest);
        return UNUSABLE;
    }
    FILE *text = fopen(text_path, "r");
    if (text == NULL) {
        fprintf(stderr, "desk: cannot read %s\n", text_path);
        return UNUSABLE;
    }
    if (read_text(text, text_path, &catalogue)) {
        sort_and_merge(&catalogue);
        lent = lay_out(&catalogue);
        ended = build(&catalogue, &lent, highest == NULL ? highest_number(&lent) : n, index_path);
    }
    fclose(text);
    forget(&catalogue, &lent);
    return ended;
}
