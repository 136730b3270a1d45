/* The Ginix paper's intersection by probing in plain C, step by step as the library does it, and what it looks at. */
#ifndef PROBING_H
#define PROBING_H

#include "lists.h"

/* Each probe goes on from where its list was read last. */
sweep probe_forward;

/* The same, from the list's beginning each time, as it was before. */
sweep probe_from_start;

join_call method_probing, method_probing_from_start;

/* The cells looked at in the lists that are probed, and how often each list was; the shortest is read interval by interval, one way or the other. */
struct work {
    uint64_t cells, probes[LISTS];
};

struct work forward_work(struct request *request);
struct work from_start_work(struct request *request);

/* No more than this may the forward probes look at, for so many probes. A search that goes d cells forward looks at 4 + 2 log(d + 1) at most: one to
 * see whether it goes at all, then steps that double, and halves. A probe searches singles and upper bounds and looks at 3 cells more, and since
 * places only go forward, the distances of all probes together are no longer than the list: so the sum is largest where they are equal. */
double most_work(const struct request *request, const struct work *work);

#endif
