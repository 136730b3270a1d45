/* The lists of a join's request, read interval by interval where they stand in the index. */
#ifndef LISTS_H
#define LISTS_H

#include "engine_index.h"

enum { LISTS = 16, LIMIT = 16777216 };

struct list {
    const uint8_t *s, *l, *u;
    size_t singles, pairs;
};

struct place {
    size_t p, q;
};

struct interval {
    uint32_t lower, upper;
};

struct request {
    struct list lists[LISTS];
    size_t count;
    uint32_t *cells;
    uint64_t intervals, records;
};

static inline uint32_t or_limit(const uint8_t *cells, size_t count, size_t i)
{
    return i < count ? cell(cells + 4 * i) : LIMIT;
}

static inline struct interval next_interval(const struct list *list, struct place at)
{
    uint32_t single = or_limit(list->s, list->singles, at.p), low = or_limit(list->l, list->pairs, at.q);
    return single < low ? (struct interval){single, single} : (struct interval){low, cell(list->u + 4 * at.q)};
}

static inline struct place next_place(const struct list *list, struct place at)
{
    int single = or_limit(list->s, list->singles, at.p) < or_limit(list->l, list->pairs, at.q);
    return (struct place){at.p + (size_t)single, at.q + (size_t)!single};
}

static inline int used_up(const struct list *list, struct place at)
{
    return list->singles + list->pairs <= at.p + at.q;
}

static inline void put(struct request *request, uint32_t lower, uint32_t upper)
{
    request->cells[2 * request->intervals] = lower;
    request->cells[2 * request->intervals + 1] = upper;
    request->intervals++;
    request->records += upper - lower + 1;
}

/* Rows 1 to 5, 13, 14, and 12 unless there is room for the intervals of all lists together: the methods here never count first. */
struct engine_result open_request(struct request *request, const uint8_t *bytes, size_t length, const uint32_t *entries, size_t count,
                                  uint32_t *cells, size_t room);

/* A method answers a request that is open. */
typedef void sweep(struct request *);

/* Opens a request, and answers it by a method. */
struct engine_result answer(sweep *method, const uint8_t *index, size_t length, const uint32_t *entries, size_t count, uint32_t *cells, size_t room);

#endif
