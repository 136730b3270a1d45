/* The index as the engine reads it. */
#ifndef ENGINE_INDEX_H
#define ENGINE_INDEX_H

#include "engine.h"

#include <string.h>

/* Cells are low byte first, as this machine's are: bench/run builds for x86-64 only. */
static inline uint32_t cell(const uint8_t *at)
{
    uint32_t value;
    memcpy(&value, at, 4);
    return value;
}

struct line {
    uint32_t word_start, word_length, list_start, singles, pairs;
};

struct sound {
    const uint8_t *bytes;
    uint32_t words, directory, count, highest;
};

static inline struct line line_of(const struct sound *index, size_t entry)
{
    const uint8_t *at = index->bytes + index->directory + 20 * entry;
    return (struct line){cell(at), cell(at + 4), cell(at + 8), cell(at + 12), cell(at + 16)};
}

struct engine_result open_index(const uint8_t *bytes, size_t length, struct sound *index);
size_t find_word(const struct sound *index, const uint8_t *word, size_t length);

#endif
