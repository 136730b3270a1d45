/* The independent Rust implementation (reference.rs): it checks the whole index, reads it into memory, and merges sorted intervals. */
#ifndef REFERENCE_H
#define REFERENCE_H

#include "engine.h"

/* Refusals 1 to 5. */
struct engine_result reference_check(const uint8_t *index, size_t length);

/* Refusals 1 to 5, 22, 6 to 12. */
struct engine_result reference_ask(const uint8_t *index, size_t length, uint32_t rule, const uint8_t *question, size_t question_length,
                                   uint32_t *cells, size_t room);

join_call reference_union, reference_intersection;

#endif
