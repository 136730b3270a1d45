/* An older archive of the library beside this one, in one run: `bench/run --beside ARCHIVE` gives its calls the names old_naburain_... It has the
 * same calls, and the rules too. */
#ifndef BESIDE_H
#define BESIDE_H

#include "timing.h"

#ifdef HAVE_OLD
#define OLD(call) old_##call
our_join_call old_naburain_union_scan_line, old_naburain_union_active_interval, old_naburain_intersection_twin_heap,
    old_naburain_intersection_probing;
struct naburain_checked old_naburain_check(const uint8_t *, size_t);
struct naburain_answered old_naburain_ask(const uint8_t *, size_t, uint32_t, const uint8_t *, size_t, uint32_t *, size_t);
struct naburain_written old_naburain_build(uint32_t, const uint8_t *, size_t, const uint32_t *, size_t, const uint32_t *, size_t, uint8_t *, size_t);
run old_check, old_ask, old_ask_and_first;
#else
#define OLD(call) NULL
#endif

/* The seconds of the older archive's join without its check, or 0 where there is none or where they tell nothing. */
double old_answer(const struct job *job);

/* Ends the program where the older archive answers the job's question by a rule otherwise. */
void same_as_old(const struct job *job, uint32_t rule, uint32_t *old_cells);

/* Questions by rule 1 and joins of both, and the largest ratios; says so where there is no older one. */
void bench_beside(const struct corpus *corpora, size_t count, uint32_t *cells, uint32_t *old_cells, size_t room);

#endif
