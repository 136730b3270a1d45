/* Each interval of the shortest list is cut down to what stands in every other list. */
#include "probing.h"

#include <math.h>

struct sense {
    int inside;
    uint32_t until;
};

/* A cell of a probed list; `work` is none where nothing is counted. */
static inline uint32_t look(const uint8_t *cells, size_t i, struct work *work)
{
    if (work != NULL) {
        work->cells++;
    }
    return cell(cells + 4 * i);
}

/* How many cells lie below x, from a place that is not past them: by steps that double, then by halves. */
static inline size_t count_below(const uint8_t *cells, size_t count, size_t from, uint32_t x, struct work *work)
{
    size_t low = from, high = from, step = 1;
    while (high < count && look(cells, high, work) < x) {
        low = high + 1;
        if (count - low < step) {
            high = count;
        } else {
            high = low + step;
            step *= 2;
        }
    }
    while (low < high) {
        size_t middle = low + (high - low) / 2;
        if (look(cells, middle, work) < x) {
            low = middle + 1;
        } else {
            high = middle;
        }
    }
    return low;
}

/* The same from any place: from behind it, where its cell lies below x; the place itself, where only the one in front of it does. */
static inline size_t seek(const uint8_t *cells, size_t count, size_t hint, uint32_t x, struct work *work)
{
    if (hint < count && look(cells, hint, work) < x) {
        return count_below(cells, count, hint + 1, x, work);
    }
    if (hint == 0 || look(cells, hint - 1, work) < x) {
        return hint;
    }
    return count_below(cells, count, 0, x, work);
}

/* What a list says of x, and up to where; its place moves to x, forward or from the start. */
static inline struct sense sense_in(const struct list *list, struct place *at, uint32_t x, int forward, struct work *work)
{
    at->p = forward ? seek(list->s, list->singles, at->p, x, work) : count_below(list->s, list->singles, 0, x, work);
    at->q = forward ? seek(list->u, list->pairs, at->q, x, work) : count_below(list->u, list->pairs, 0, x, work);
    uint32_t single = at->p < list->singles ? look(list->s, at->p, work) : LIMIT;
    if (single <= x) {
        return (struct sense){1, x + 1};
    }
    uint32_t low = at->q < list->pairs ? look(list->l, at->q, work) : LIMIT;
    if (low <= x) {
        return (struct sense){1, look(list->u, at->q, work) + 1};
    }
    return (struct sense){0, single < low ? single : low};
}

/* Whether x, which is in list j up to `last`, is in all lists, and up to where. */
static inline struct sense probe(const struct request *request, size_t j, uint32_t x, uint32_t last, int forward, struct place *places,
                                 struct work *work)
{
    uint32_t until = last + 1;
    for (size_t k = 0; k < request->count; k++) {
        if (k == j) {
            continue;
        }
        if (work != NULL) {
            work->probes[k]++;
        }
        struct sense sense = sense_in(&request->lists[k], &places[k], x, forward, work);
        if (!sense.inside) {
            return (struct sense){0, sense.until < last + 1 ? sense.until : last + 1};
        }
        until = sense.until < until ? sense.until : until;
    }
    return (struct sense){1, until};
}

static inline void put_within(struct request *request, size_t j, struct interval within, int forward, struct place *places, struct work *work)
{
    uint32_t x = within.lower, lower = x;
    int open = 0;
    while (x <= within.upper) {
        struct sense sense = probe(request, j, x, within.upper, forward, places, work);
        if (open && !sense.inside) {
            put(request, lower, x - 1);
        }
        lower = open ? lower : x;
        open = sense.inside;
        x = sense.until;
    }
    if (open) {
        put(request, lower, x - 1);
    }
}

static inline void probing(struct request *request, int forward, struct work *work)
{
    struct place places[LISTS] = {{0, 0}}, at = {0, 0};
    size_t j = 0;
    for (size_t k = 1; k < request->count; k++) {
        const struct list *best = &request->lists[j], *list = &request->lists[k];
        j = list->singles + list->pairs < best->singles + best->pairs ? k : j;
    }
    for (const struct list *list = &request->lists[j]; !used_up(list, at); at = next_place(list, at)) {
        put_within(request, j, next_interval(list, at), forward, places, work);
    }
}

/* ---- timed ---- */

void probe_forward(struct request *request)
{
    probing(request, 1, NULL);
}

void probe_from_start(struct request *request)
{
    probing(request, 0, NULL);
}

struct engine_result method_probing(const uint8_t *index, size_t length, const uint32_t *entries, size_t count, uint32_t *cells, size_t room)
{
    return answer(probe_forward, index, length, entries, count, cells, room);
}

struct engine_result method_probing_from_start(const uint8_t *index, size_t length, const uint32_t *entries, size_t count, uint32_t *cells,
                                               size_t room)
{
    return answer(probe_from_start, index, length, entries, count, cells, room);
}

/* ---- counted ---- */

struct work forward_work(struct request *request)
{
    struct work work = {0};
    probing(request, 1, &work);
    return work;
}

struct work from_start_work(struct request *request)
{
    struct work work = {0};
    probing(request, 0, &work);
    return work;
}

double most_work(const struct request *request, const struct work *work)
{
    double most = 0;
    for (size_t k = 0; k < request->count; k++) {
        const struct list *list = &request->lists[k];
        double probes = (double)work->probes[k];
        if (probes > 0) {
            most += probes * (11 + 2 * log2(1 + (double)list->singles / probes) + 2 * log2(1 + (double)list->pairs / probes));
        }
    }
    return most;
}
