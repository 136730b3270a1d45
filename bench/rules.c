#include "rules.h"

#include "asked.h"
#include "beside.h"

#include <stdio.h>

/* From a question of one group to one of as many groups as there can be, and brackets up to the eighth. */
static const struct question SAME[] = {
    {"and, rare with common", "r0 and c0"},
    {"and, common", "c0 and c1"},
    {"and, not", "c0 and c1 and m0 not r0"},
    {"or, five words", "m0 or m1 or m2 or m3 or m4"},
    {"or, five common", "c0 or c1 or c2 or c3 or c4"},
    {"or, sixteen words", "c0 or c1 or c2 or c3 or m0 or m1 or m2 or m3 or m4 or m5 or m6 or m7 or r0 or r1 or r2 or r3"},
    {"and before or", "c0 and m0 or r0"},
    {"or, parts alone", "r0 or (c0 and m0) or (c1 and m1)"},
    {"nested", "((c0 or m0) and (c1 or (m1 not r0))) not (c2 and (m2 or r1))"},
    {"eight brackets", "c0 not (m0 and (c1 not (m1 and (c2 not (m2 and (c3 not (m3 and (c4 or r0))))))))"},
};

static void ask_and_first(const struct job *job)
{
    sink += asked_by(job, AND_FIRST, job->cells).records;
}

static run *const RUNS[] = {
    our_ask,
    ask_and_first,
    our_check,
#ifdef HAVE_OLD
    old_ask,
    old_ask_and_first,
    old_check,
#endif
};

/* The library by one rule against the C engine by the other: so both are right, and the question means the same by both. An older archive answers the
 * same by each. */
static struct naburain_answered held_to_others(const struct job *job, uint32_t *other_cells)
{
    const struct corpus *c = job->corpus;
    size_t length = strlen(job->question);
    struct naburain_answered got = {0, 0, 0, 0};
    for (uint32_t rule = FROM_LEFT; rule <= AND_FIRST; rule++) {
        uint32_t other = FROM_LEFT + AND_FIRST - rule;
        got = asked_by(job, rule, job->cells);
        same(job->question, got, engine_ask(c->index, c->length, other, (const uint8_t *)job->question, length, other_cells, job->room), job->cells,
             other_cells);
        same_as_old(job, rule, other_cells);
    }
    return got;
}

#ifdef HAVE_OLD
/* The older archive's time by a rule, the new over it, and that without the check; a dash where the check is nearly all. */
static void show_old(double ours, double our_check_time, double old, double old_check_time)
{
    double ratio = rest_ratio(ours, our_check_time, old, old_check_time);
    printf(" %9.1f %6.2f", 1e6 * old, ours / old);
    if (ratio > 0) {
        printf(" %6.2f", ratio);
    } else {
        printf(" %6s", "-");
    }
}
#endif

static void show_row(const struct job *job, const char *what, uint64_t intervals)
{
    enum { COUNT = sizeof RUNS / sizeof RUNS[0] };
    double best[COUNT];
    best_of(RUNS, COUNT, job, best);
    printf("%-10s %-22s %9d %9.1f %9.1f %6.2f", job->corpus->name, what, (int)intervals, 1e6 * best[1], 1e6 * best[0], best[1] / best[0]);
    show_rest(best[1], best[2], best[0], best[2]);
#ifdef HAVE_OLD
    show_old(best[1], best[2], best[4], best[5]);
    show_old(best[0], best[2], best[3], best[5]);
    printf("\n");
#else
    printf(" %9s %6s %6s %9s %6s %6s\n", "-", "-", "-", "-", "-", "-");
#endif
}

void bench_rules(const struct corpus *corpora, size_t count, uint32_t *cells, uint32_t *other_cells, size_t room)
{
    printf("\nThe two rules, on questions that mean the same by both (microseconds; best of 36): rule 2, rule 1, rule 2 over rule 1; `old` is of an older\n"
           "archive by the same rule, with new over old behind it, of the whole call and of the answer; `answer` is without the check\n");
    printf("%-10s %-22s %9s %9s %9s %6s %9s %9s %6s %9s %6s %6s %9s %6s %6s\n", "corpus", "question", "intervals", "rule 2", "rule 1", "ratio",
           "answer 2", "answer 1", "ratio", "old 2", "ratio", "answer", "old 1", "ratio", "answer");
    for (size_t i = 0; i < count; i++) {
        struct job job = {.corpus = &corpora[i], .cells = cells, .room = room};
        for (size_t k = 0; k < sizeof SAME / sizeof SAME[0]; k++) {
            job.question = SAME[k].question;
            show_row(&job, SAME[k].what, held_to_others(&job, other_cells).intervals);
        }
    }
}
