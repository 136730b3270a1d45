/* The check of an index, and lookup. */
#include "engine_index.h"

static struct engine_result refused(uint64_t refusal, uint64_t value)
{
    return (struct engine_result){refusal, value, 0, 0};
}

static int is_word_byte(uint8_t b)
{
    return (b >= 'a' && b <= 'z') || (b >= 'A' && b <= 'Z') || (b >= '0' && b <= '9');
}

static int is_operator(const uint8_t *word, size_t length)
{
    return (length == 3 && (memcmp(word, "and", 3) == 0 || memcmp(word, "not", 3) == 0)) || (length == 2 && memcmp(word, "or", 2) == 0);
}

static int compare(const uint8_t *a, size_t a_length, const uint8_t *b, size_t b_length)
{
    int order = memcmp(a, b, a_length < b_length ? a_length : b_length);
    return order != 0 ? order : (a_length > b_length) - (a_length < b_length);
}

static int good_word(const uint8_t *word, size_t length)
{
    if (length == 0 || length > 32 || is_operator(word, length)) {
        return 0;
    }
    for (size_t i = 0; i < length; i++) {
        if (!is_word_byte(word[i])) {
            return 0;
        }
    }
    return 1;
}

/* Row 4: the first bad entry, n for an end, or -1. */
static int64_t bad_entry(const struct sound *index)
{
    uint64_t word_end = index->words, list_end = 0;
    struct line before = {0, 0, 0, 0, 0};
    for (uint32_t i = 0; i < index->count; i++) {
        struct line line = line_of(index, i);
        if (line.word_start != word_end || line.list_start != list_end || (line.singles == 0 && line.pairs == 0)) {
            return i;
        }
        word_end += line.word_length;
        list_end += 4 * ((uint64_t)line.singles + 2 * (uint64_t)line.pairs);
        const uint8_t *word = index->bytes + line.word_start;
        if (word_end > index->directory || list_end > index->words || !good_word(word, line.word_length)) {
            return i;
        }
        if (i > 0 && compare(index->bytes + before.word_start, before.word_length, word, line.word_length) >= 0) {
            return i;
        }
        before = line;
    }
    return word_end != index->directory || list_end != index->words ? (int64_t)index->count : -1;
}

/* Row 5 for one list: singles and pairs merged by their two positions. */
static int good_list(const struct sound *index, struct line line)
{
    const uint8_t *s = index->bytes + line.list_start, *l = s + 4 * (size_t)line.singles, *u = l + 4 * (size_t)line.pairs;
    size_t p = 0, q = 0;
    uint64_t least = 1;
    while (p < line.singles && q < line.pairs) {
        uint32_t single = cell(s + 4 * p), low = cell(l + 4 * q), high;
        if (single < low) {
            p++;
            low = high = single;
        } else {
            high = cell(u + 4 * q++);
            if (low >= high) {
                return 0;
            }
        }
        if (low < least || high > index->highest) {
            return 0;
        }
        least = (uint64_t)high + 2;
    }
    for (; p < line.singles; p++) {
        uint32_t single = cell(s + 4 * p);
        if (single < least || single > index->highest) {
            return 0;
        }
        least = (uint64_t)single + 2;
    }
    for (; q < line.pairs; q++) {
        uint32_t low = cell(l + 4 * q), high = cell(u + 4 * q);
        if (low < least || low >= high || high > index->highest) {
            return 0;
        }
        least = (uint64_t)high + 2;
    }
    return 1;
}

struct engine_result open_index(const uint8_t *bytes, size_t length, struct sound *index)
{
    if (length < 20 || length > 16777216) {
        return refused(1, length);
    }
    const uint8_t *trailer = bytes + length - 20;
    *index = (struct sound){bytes, cell(trailer), cell(trailer + 4), cell(trailer + 8), cell(trailer + 12)};
    if (cell(trailer + 16) != 1) {
        return refused(2, cell(trailer + 16));
    }
    if (index->highest > 16777215 || index->count > 65535 || index->words > index->directory ||
        (uint64_t)index->directory + 20 * (uint64_t)index->count + 20 != length) {
        return refused(3, 0);
    }
    int64_t bad = bad_entry(index);
    if (bad >= 0) {
        return refused(4, (uint64_t)bad);
    }
    for (uint32_t i = 0; i < index->count; i++) {
        if (!good_list(index, line_of(index, i))) {
            return refused(5, i);
        }
    }
    return refused(0, 0);
}

struct engine_result engine_check(const uint8_t *bytes, size_t length)
{
    struct sound index;
    return open_index(bytes, length, &index);
}

/* The entry of a word, or the word count. */
size_t find_word(const struct sound *index, const uint8_t *word, size_t length)
{
    size_t low = 0, high = index->count;
    while (low < high) {
        size_t middle = low + (high - low) / 2;
        struct line line = line_of(index, middle);
        int order = compare(index->bytes + line.word_start, line.word_length, word, length);
        if (order == 0) {
            return middle;
        }
        if (order < 0) {
            low = middle + 1;
        } else {
            high = middle;
        }
    }
    return index->count;
}
