#include "timing.h"

#include <stdio.h>
#include <stdlib.h>

volatile uint64_t sink;

void our_check(const struct job *job)
{
    sink += naburain_check(job->corpus->index, job->corpus->length).refusal;
}

struct naburain_answered asked_by(const struct job *job, uint32_t rule, uint32_t *cells)
{
    const struct corpus *c = job->corpus;
    return naburain_ask(c->index, c->length, rule, (const uint8_t *)job->question, strlen(job->question), cells, job->room);
}

void our_ask(const struct job *job)
{
    sink += asked_by(job, FROM_LEFT, job->cells).records;
}

void our_join(const struct job *job)
{
    sink += job->join(job->corpus->index, job->corpus->length, job->entries, job->entry_count, job->cells, job->room).records;
}

static double once(run *what, const struct job *job, size_t times)
{
    double began = seconds();
    for (size_t i = 0; i < times; i++) {
        what(job);
    }
    return (seconds() - began) / (double)times;
}

static size_t times_for(run *what, const struct job *job)
{
    double single = once(what, job, 1);
    return single > 2e-3 ? 1 : (size_t)(2e-3 / (single + 1e-8)) + 1;
}

void best_of(run *const *what, size_t count, const struct job *job, double *best)
{
    enum { ROUNDS = 36, MOST = 8 };
    size_t times[MOST];
    for (size_t k = 0; k < count; k++) {
        times[k] = times_for(what[k], job);
        best[k] = 1e9;
    }
    for (int round = 0; round < ROUNDS; round++) {
        for (size_t k = 0; k < count; k++) {
            double took = once(what[k], job, times[k]);
            best[k] = took < best[k] ? took : best[k];
        }
    }
}

int tells(double whole, double check)
{
    return whole - check >= 0.03 * check;
}

double rest_ratio(double ours, double our_check_time, double theirs, double their_check_time)
{
    int both = tells(ours, our_check_time) && tells(theirs, their_check_time);
    return both ? (ours - our_check_time) / (theirs - their_check_time) : 0;
}

void show_rest(double ours, double our_check_time, double theirs, double their_check_time)
{
    double ratio = rest_ratio(ours, our_check_time, theirs, their_check_time);
    if (ratio > 0) {
        printf(" %9.1f %9.1f %6.2f", 1e6 * (ours - our_check_time), 1e6 * (theirs - their_check_time), ratio);
    } else {
        printf(" %9s %9s %6s", "-", "-", "-");
    }
}

void same(const char *what, struct naburain_answered ours, struct engine_result theirs, const uint32_t *our_cells, const uint32_t *their_cells)
{
    if (ours.refusal != 0 || theirs.refusal != 0 || ours.intervals != theirs.intervals || ours.records != theirs.records ||
        memcmp(our_cells, their_cells, 8 * ours.intervals) != 0) {
        printf("FAILED: the two sides answer %s differently\n", what);
        exit(1);
    }
}
