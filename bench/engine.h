/* A search engine of the same kind in plain C, written to be compared with: the whole index checked, the question read once into a postfix
 * program, records walked in windows of 8,192 bits with jumps over stretches in which nothing changes. */
#ifndef ENGINE_H
#define ENGINE_H

#include <stddef.h>
#include <stdint.h>

struct engine_result {
    uint64_t refusal, value, intervals, records;
};

/* Refusals 1 to 5. */
struct engine_result engine_check(const uint8_t *index, size_t length);

/* Refusals 1 to 5, 22, 6 to 12. */
struct engine_result engine_ask(const uint8_t *index, size_t length, uint32_t rule, const uint8_t *question, size_t question_length,
                                uint32_t *cells, size_t room);

/* A join, by whatever method: refusals 1 to 5, 13, 14, 12. */
typedef struct engine_result join_call(const uint8_t *index, size_t length, const uint32_t *entries, size_t count, uint32_t *cells, size_t room);

join_call engine_union, engine_intersection;

#endif
