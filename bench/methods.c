/* Heaps of the lists' bounds. */
#include "methods.h"

#include "lists.h"

enum { LOWERS = 32 };

struct places {
    struct place at[LISTS];
};

static __attribute__((noinline)) struct places moved_on(const struct list *list, struct places places, size_t j)
{
    places.at[j] = next_place(list, places.at[j]);
    return places;
}

/* ---- a heap with its least in front ---- */

static void sink_key(uint32_t *heap, size_t size, uint32_t key)
{
    size_t at = 0;
    for (size_t child = 1; child < size; child = 2 * at + 1) {
        child += child + 1 < size && heap[child + 1] < heap[child];
        if (key <= heap[child]) {
            break;
        }
        heap[at] = heap[child];
        at = child;
    }
    heap[at] = key;
}

static void push(uint32_t *heap, size_t size, uint32_t key)
{
    size_t at = size;
    for (; at > 0 && key < heap[(at - 1) / 2]; at = (at - 1) / 2) {
        heap[at] = heap[(at - 1) / 2];
    }
    heap[at] = key;
}

/* ---- the methods ---- */

/* The lower bound of each list's first interval, with its list. */
static void first_lowers(const struct request *request, uint32_t *keys)
{
    for (size_t j = 0; j < request->count; j++) {
        push(keys, j, next_interval(&request->lists[j], (struct place){0, 0}).lower * 32 + (uint32_t)j);
    }
}

/* List j's next lower bound takes the place of the least key, or the key goes. */
static size_t refill(const struct list *list, struct place at, size_t j, uint32_t *keys, size_t size)
{
    if (used_up(list, at)) {
        sink_key(keys, size - 1, keys[size - 1]);
        return size - 1;
    }
    sink_key(keys, size, next_interval(list, at).lower * 32 + (uint32_t)j);
    return size;
}

static inline void scan_line(struct request *request, int by_value)
{
    uint32_t keys[LISTS], lower = 0;
    struct places places = {0};
    size_t size = request->count, inside = 0;
    first_lowers(request, keys);
    while (size > 0) {
        uint32_t key = keys[0];
        size_t j = key % 16;
        const struct list *list = &request->lists[j];
        if (key / 16 % 2 == 0) {
            lower = inside++ == 0 ? key / 32 : lower;
            sink_key(keys, size, (next_interval(list, places.at[j]).upper + 1) * 32 + 16 + (uint32_t)j);
            continue;
        }
        if (--inside == 0) {
            put(request, lower, key / 32 - 1);
        }
        if (by_value) {
            places = moved_on(list, places, j);
        } else {
            places.at[j] = next_place(list, places.at[j]);
        }
        size = refill(list, places.at[j], j, keys, size);
    }
}

static void active_interval(struct request *request)
{
    uint32_t keys[LISTS];
    struct place places[LISTS] = {{0, 0}};
    size_t size = request->count;
    first_lowers(request, keys);
    struct interval active = {keys[0] / 32, keys[0] / 32};
    while (size > 0) {
        size_t j = keys[0] % 16;
        const struct list *list = &request->lists[j];
        struct interval next = next_interval(list, places[j]);
        if (active.upper + 1 < next.lower) {
            put(request, active.lower, active.upper);
            active.lower = next.lower;
        }
        active.upper = next.upper > active.upper ? next.upper : active.upper;
        places[j] = next_place(list, places[j]);
        size = refill(list, places[j], j, keys, size);
    }
    put(request, active.lower, active.upper);
}

static void fill_lowers(const struct request *request, const struct place *places, uint32_t *lowers)
{
    for (size_t j = 0; j < request->count; j++) {
        push(lowers, j, LIMIT - next_interval(&request->lists[j], places[j]).lower);
    }
}

static void twin_heap(struct request *request)
{
    uint32_t uppers[LISTS], lowers[LOWERS];
    struct place places[LISTS] = {{0, 0}};
    size_t size = request->count;
    for (size_t j = 0; j < request->count; j++) {
        push(uppers, j, next_interval(&request->lists[j], places[j]).upper * 16 + (uint32_t)j);
    }
    fill_lowers(request, places, lowers);
    for (;;) {
        if (size == LOWERS) {
            fill_lowers(request, places, lowers);
            size = request->count;
        }
        uint32_t largest = LIMIT - lowers[0], least = uppers[0] / 16;
        size_t j = uppers[0] % 16;
        const struct list *list = &request->lists[j];
        if (largest <= least) {
            put(request, largest, least);
        }
        places[j] = next_place(list, places[j]);
        if (used_up(list, places[j])) {
            return;
        }
        struct interval next = next_interval(list, places[j]);
        sink_key(uppers, request->count, next.upper * 16 + (uint32_t)j);
        push(lowers, size++, LIMIT - next.lower);
    }
}

/* ---- the calls ---- */

static void scan_in_place(struct request *request)
{
    scan_line(request, 0);
}

static void scan_by_value(struct request *request)
{
    scan_line(request, 1);
}

struct engine_result method_scan_line(const uint8_t *index, size_t length, const uint32_t *entries, size_t count, uint32_t *cells, size_t room)
{
    return answer(scan_in_place, index, length, entries, count, cells, room);
}

struct engine_result method_scan_line_by_value(const uint8_t *index, size_t length, const uint32_t *entries, size_t count, uint32_t *cells,
                                               size_t room)
{
    return answer(scan_by_value, index, length, entries, count, cells, room);
}

struct engine_result method_active_interval(const uint8_t *index, size_t length, const uint32_t *entries, size_t count, uint32_t *cells, size_t room)
{
    return answer(active_interval, index, length, entries, count, cells, room);
}

struct engine_result method_twin_heap(const uint8_t *index, size_t length, const uint32_t *entries, size_t count, uint32_t *cells, size_t room)
{
    return answer(twin_heap, index, length, entries, count, cells, room);
}
