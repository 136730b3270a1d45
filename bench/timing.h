/* Timing: the best of many, several runs in turns. */
#ifndef TIMING_H
#define TIMING_H

#include "corpus.h"
#include "lists.h"
#include "naburain.h"

/* Written to by what is timed, so that it is not left out. */
extern volatile uint64_t sink;

typedef struct naburain_answered our_join_call(const uint8_t *, size_t, const uint32_t *, size_t, uint32_t *, size_t);

/* What one run is over. */
struct job {
    const struct corpus *corpus;
    const char *question;
    const uint32_t *entries;
    size_t entry_count;
    uint32_t *cells;
    size_t room;
    our_join_call *join, *old_join;
    join_call *engine_join;
    const struct request *request;
    struct roaring *roaring;
    struct sqlite *sqlite;
    struct tree *tree;
};

/* The numbers of the rules: each table asks by the first, the table of the rules by both. */
enum { FROM_LEFT = 1, AND_FIRST = 2 };

/* The library's answer to the job's question by a rule. */
struct naburain_answered asked_by(const struct job *job, uint32_t rule, uint32_t *cells);

/* One call. */
typedef void run(const struct job *);

run our_check, our_ask, our_join;

/* The best of each of several runs, in seconds, taken in turns. */
void best_of(run *const *what, size_t count, const struct job *job, double *best);

/* Whether what is left of a time after the check says anything. */
int tells(double whole, double check);

/* The ratio of what is left of two times after the check, or 0 where the check is nearly all. */
double rest_ratio(double ours, double our_check_time, double theirs, double their_check_time);

/* What is left of two times after the check, and its ratio; dashes where the check is nearly all. */
void show_rest(double ours, double our_check_time, double theirs, double their_check_time);

/* Ends the program where two answers differ. */
void same(const char *what, struct naburain_answered ours, struct engine_result theirs, const uint32_t *our_cells, const uint32_t *their_cells);

#endif
