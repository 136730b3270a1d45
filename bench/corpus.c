#include "corpus.h"

#include "naburain.h"

#include <stdio.h>
#include <stdlib.h>
#include <string.h>
#include <time.h>

enum { WORDS = 30 };

uint64_t next_random(uint64_t *state)
{
    uint64_t z = *state += 0x9E3779B97F4A7C15u;
    z = (z ^ (z >> 30)) * 0xBF58476D1CE4E5B9u;
    z = (z ^ (z >> 27)) * 0x94D049BB133111EBu;
    return z ^ (z >> 31);
}

double seconds(void)
{
    struct timespec now;
    clock_gettime(CLOCK_MONOTONIC, &now);
    return (double)now.tv_sec + 1e-9 * (double)now.tv_nsec;
}

void *must(void *block)
{
    if (block == NULL) {
        fprintf(stderr, "bench: no memory\n");
        exit(2);
    }
    return block;
}

/* Marks the stretches of one word in a map with a byte for each record. */
typedef void drawing(const struct kind *kind, uint32_t stretches, uint64_t *state, uint8_t *map);

static void draw_stretch(const struct kind *kind, uint32_t from, uint64_t *state, uint8_t *map)
{
    uint32_t length = next_random(state) % 10 < kind->singles_in_ten ? 1 : 1 + (uint32_t)(next_random(state) % kind->longest);
    for (uint32_t record = from; record <= kind->highest && record < from + length; record++) {
        map[record] = 1;
    }
}

/* Anywhere: stretches that meet become one. */
static void draw(const struct kind *kind, uint32_t stretches, uint64_t *state, uint8_t *map)
{
    for (uint32_t i = 0; i < stretches; i++) {
        draw_stretch(kind, 1 + (uint32_t)(next_random(state) % kind->highest), state, map);
    }
    if (kind->longest == 1) { /* touching singles would be a stretch */
        for (uint32_t record = 2; record <= kind->highest; record++) {
            map[record] &= (uint8_t)!map[record - 1];
        }
    }
}

/* One in each of so many equal parts, with a record free behind it: as many as are asked for. */
static void draw_apart(const struct kind *kind, uint32_t stretches, uint64_t *state, uint8_t *map)
{
    uint32_t part = kind->highest / stretches;
    for (uint32_t i = 0; i < stretches; i++) {
        draw_stretch(kind, 1 + part * i + (uint32_t)(next_random(state) % (part - kind->longest)), state, map);
    }
}

static uint32_t stretches_of(const struct kind *kind, int word)
{
    uint32_t stretches = word < 10 ? kind->stretches : word < 20 ? kind->stretches / 10 : kind->stretches / 1000;
    return stretches < 3 ? 3 : stretches;
}

static struct corpus draw_corpus(const struct kind *kind, drawing *how, const char *words, const uint32_t *stretches, size_t count)
{
    uint32_t *counts = must(malloc(count * sizeof *counts));
    size_t room = 1 << 20, length = 0;
    uint32_t *numbers = must(malloc(room * sizeof *numbers));
    uint8_t *map = must(malloc((size_t)kind->highest + 1));
    uint64_t state = 1;
    for (size_t word = 0; word < count; word++) {
        memset(map, 0, (size_t)kind->highest + 1);
        how(kind, stretches[word], &state, map);
        size_t before = length;
        for (uint32_t record = 1; record <= kind->highest; record++) {
            if (map[record]) {
                if (length == room) {
                    numbers = must(realloc(numbers, (room *= 2) * sizeof *numbers));
                }
                numbers[length++] = record;
            }
        }
        counts[word] = (uint32_t)(length - before);
    }
    free(map);
    uint8_t *index = must(malloc(NABURAIN_INDEX_MAX));
    struct naburain_written built =
        naburain_build(kind->highest, (const uint8_t *)words, strlen(words), counts, count, numbers, length, index, NABURAIN_INDEX_MAX);
    free(numbers), free(counts);
    if (built.refusal != 0) {
        fprintf(stderr, "bench: building %s was refused by %d with %d\n", kind->name, (int)built.refusal, (int)built.value);
        exit(2);
    }
    return (struct corpus){kind->name, kind->highest, must(realloc(index, built.written)), built.written, length};
}

struct corpus make_corpus(const struct kind *kind)
{
    char words[WORDS * 3 + 1] = "";
    uint32_t stretches[WORDS];
    for (int word = 0; word < WORDS; word++) {
        snprintf(words + 3 * word, 4, "%c%d\n", "cmr"[word / 10], word % 10);
        stretches[word] = stretches_of(kind, word);
    }
    return draw_corpus(kind, draw, words, stretches, WORDS);
}

struct corpus make_corpus_of(const struct kind *kind, const char *words, const uint32_t *stretches, size_t count)
{
    return draw_corpus(kind, draw_apart, words, stretches, count);
}

void free_corpus(struct corpus *corpus)
{
    free(corpus->index);
}
