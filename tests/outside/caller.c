/* Calls every exported function through the header, each slice in an allocation of exactly its size, so that a memory checker sees every
 * element read or written too far: the example of Reference 4.4, then the same calls over that index with each byte changed in turn. */
#include "naburain.h"

#include <stdio.h>
#include <stdlib.h>
#include <string.h>

enum { CELLS = 16, LENGTH = 172 };

static int failures;

static void expect(int holds, const char *what)
{
    if (!holds) {
        printf("caller: FAILED: %s\n", what);
        failures++;
    }
}

static void *copy(const void *bytes, size_t length)
{
    void *own = malloc(length);
    if (own == NULL && length > 0) {
        exit(2);
    }
    if (length > 0) {
        memcpy(own, bytes, length);
    }
    return own;
}

static uint8_t *build_example(void)
{
    static const char words[] = "boats\nharbour\nmaps\ntide\n";
    static const uint32_t counts[] = {4, 5, 4, 3};
    static const uint32_t numbers[] = {2, 3, 4, 8, 1, 2, 3, 6, 7, 5, 6, 7, 9, 3, 8, 9};
    uint8_t *w = copy(words, sizeof words - 1), *index = malloc(LENGTH), *small = malloc(LENGTH - 1);
    uint32_t *c = copy(counts, sizeof counts), *n = copy(numbers, sizeof numbers);
    struct naburain_written none = naburain_build(9, w, sizeof words - 1, c, 4, n, 16, small, LENGTH - 1);
    struct naburain_written built = naburain_build(9, w, sizeof words - 1, c, 4, n, 16, index, LENGTH);
    expect(none.refusal == NABURAIN_ROOM && none.value == LENGTH && none.written == 0, "room for one byte less");
    expect(built.refusal == 0 && built.value == 0 && built.written == LENGTH, "building the example");
    free(w), free(c), free(n), free(small);
    return index;
}

struct asked {
    uint32_t rule;
    const char *question;
    uint64_t refusal, value, intervals, records;
    uint32_t cells[4];
};

static void ask_example(const uint8_t *index)
{
    static const struct asked table[] = {
        {1, "boats or tide", 0, 0, 2, 5, {2, 4, 8, 9}},
        {1, "boats or maps", 0, 0, 1, 8, {2, 9}},
        {1, "harbour and maps not tide", 0, 0, 1, 2, {6, 7}},
        {1, "boats or harbour and maps", 0, 0, 1, 2, {6, 7}},
        {2, "boats or harbour and maps", 0, 0, 2, 6, {2, 4, 6, 8}},
        {1, "boats or (harbour and maps)", 0, 0, 2, 6, {2, 4, 6, 8}},
        {1, "tide tables", NABURAIN_GRAMMAR, 5, 0, 0, {0}},
        {2, "tide tables", NABURAIN_GRAMMAR, 5, 0, 0, {0}},
        {1, "pier", 0, 0, 0, 0, {0}},
        {1, "", NABURAIN_GRAMMAR, 0, 0, 0, {0}},
        {0, "boats", NABURAIN_RULE, 0, 0, 0, {0}},
        {3, "", NABURAIN_RULE, 3, 0, 0, {0}},
        {UINT32_MAX, "boats", NABURAIN_RULE, UINT32_MAX, 0, 0, {0}},
    };
    for (size_t i = 0; i < sizeof table / sizeof table[0]; i++) {
        const struct asked *row = &table[i];
        size_t length = strlen(row->question), room = 2 * row->intervals;
        uint8_t *question = copy(row->question, length);
        uint32_t *cells = malloc(room * sizeof *cells);
        struct naburain_answered got = naburain_ask(index, LENGTH, row->rule, question, length, cells, room);
        expect(got.refusal == row->refusal && got.value == row->value, row->question);
        expect(got.intervals == row->intervals && got.records == row->records, row->question);
        expect(room == 0 || memcmp(cells, row->cells, room * sizeof *cells) == 0, row->question);
        free(question), free(cells);
    }
}

static void small_calls(const uint8_t *index)
{
    uint8_t *maps = copy("maps", 4), *pier = copy("pier", 4), *last = copy("\xff", 1);
    uint32_t *numbers = malloc(3 * sizeof *numbers), *cells = malloc(4 * sizeof *cells);
    expect(naburain_check(index, LENGTH).refusal == 0, "check");
    expect(naburain_lookup(index, LENGTH, maps, 4).entry == 2, "lookup");
    struct naburain_found missing = naburain_lookup(index, LENGTH, pier, 4);
    expect(missing.refusal == NABURAIN_NO_WORD && missing.value == 3 && missing.entry == 0, "lookup of a word that is not there");
    missing = naburain_lookup(index, LENGTH, NULL, 0);
    expect(missing.refusal == NABURAIN_NO_WORD && missing.value == 0 && missing.entry == 0, "lookup of no bytes");
    expect(naburain_lookup(index, LENGTH, last, 1).value == 4, "how many words there are");
    struct naburain_part part = naburain_word(index, LENGTH, 2);
    expect(part.refusal == 0 && part.length == 4 && memcmp(index + part.start, "maps", 4) == 0, "an entry's word");
    expect(naburain_word(index, LENGTH, 4).refusal == NABURAIN_ENTRY, "a fifth entry");
    struct naburain_probed probed = naburain_probe(index, LENGTH, 2, 8, 9);
    expect(probed.refusal == 0 && probed.below == 1 && probed.overlapping == 1, "probe");
    numbers[0] = 1, numbers[1] = 2, numbers[2] = 5;
    expect(naburain_to_intervals(numbers, 3, cells, 4).written == 2 && cells[1] == 2 && cells[2] == 5, "numbers to intervals");
    expect(naburain_to_numbers(cells, 4, numbers, 3).written == 3 && numbers[2] == 5, "intervals to numbers");
    free(maps), free(pier), free(last), free(numbers), free(cells);
}

typedef struct naburain_answered join(const uint8_t *, size_t, const uint32_t *, size_t, uint32_t *, size_t);

static join *const JOINS[] = {naburain_union_scan_line, naburain_union_active_interval, naburain_intersection_twin_heap, naburain_intersection_probing};

/* A call that refuses leaves the cells alone; one that answers leaves those behind its intervals alone. */
static void kept(const uint32_t *cells, struct naburain_answered got, const char *what)
{
    for (size_t i = 2 * got.intervals; i < CELLS; i++) {
        expect(cells[i] == 0xABABABABu, what);
    }
}

static void changed(const uint8_t *index, size_t length)
{
    uint32_t *cells = malloc(CELLS * sizeof *cells);
    static const uint32_t all[] = {0, 1, 2, 3};
    uint32_t *entries = copy(all, sizeof all);
    static const char text[] = "boats or (harbour and maps) not tide";
    uint8_t *question = copy(text, sizeof text - 1);
    for (size_t k = 0; k < 4; k++) {
        memset(cells, 0xAB, CELLS * sizeof *cells);
        kept(cells, JOINS[k](index, length, entries, 4, cells, CELLS), "cells of a join");
        naburain_word(index, length, (uint32_t)k);
        naburain_probe(index, length, (uint32_t)k, 2, 8);
    }
    for (uint32_t rule = 0; rule <= 3; rule++) {
        memset(cells, 0xAB, CELLS * sizeof *cells);
        kept(cells, naburain_ask(index, length, rule, question, sizeof text - 1, cells, CELLS), "cells of an answer");
    }
    naburain_check(index, length);
    naburain_lookup(index, length, question, 5);
    free(cells), free(entries), free(question);
}

int main(void)
{
    uint8_t *index = build_example();
    ask_example(index);
    small_calls(index);
    for (size_t place = 0; place < LENGTH; place++) {
        for (unsigned bit = 0; bit < 8; bit += 3) {
            index[place] ^= (uint8_t)(1u << bit);
            changed(index, LENGTH);
            index[place] ^= (uint8_t)(1u << bit);
        }
        uint8_t *shorter = copy(index + LENGTH - place, place);
        changed(shorter, place);
        free(shorter);
    }
    free(index);
    printf("caller: %d failed\n", failures);
    return failures > 0;
}
