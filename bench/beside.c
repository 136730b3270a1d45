#include "asked.h"
#include "beside.h"

#include <stdio.h>

#ifndef HAVE_OLD

double old_answer(const struct job *job)
{
    (void)job;
    return 0;
}

void same_as_old(const struct job *job, uint32_t rule, uint32_t *old_cells)
{
    (void)job, (void)rule, (void)old_cells;
}

void bench_beside(const struct corpus *corpora, size_t count, uint32_t *cells, uint32_t *old_cells, size_t room)
{
    (void)corpora, (void)count, (void)cells, (void)old_cells, (void)room;
    printf("\nNo older archive is beside this one (bench/run --beside ARCHIVE)\n");
}

#else

void old_check(const struct job *job)
{
    sink += old_naburain_check(job->corpus->index, job->corpus->length).refusal;
}

static struct naburain_answered asked_old(const struct job *job, uint32_t rule, uint32_t *cells)
{
    const struct corpus *c = job->corpus;
    return old_naburain_ask(c->index, c->length, rule, (const uint8_t *)job->question, strlen(job->question), cells, job->room);
}

static struct naburain_answered joined_old(const struct job *job, uint32_t *cells)
{
    return job->old_join(job->corpus->index, job->corpus->length, job->entries, job->entry_count, cells, job->room);
}

void old_ask(const struct job *job)
{
    sink += asked_old(job, FROM_LEFT, job->cells).records;
}

void old_ask_and_first(const struct job *job)
{
    sink += asked_old(job, AND_FIRST, job->cells).records;
}

static void old_join(const struct job *job)
{
    sink += joined_old(job, job->cells).records;
}

double old_answer(const struct job *job)
{
    double best[2];
    best_of((run *const[]){old_join, old_check}, 2, job, best);
    return tells(best[0], best[1]) ? best[0] - best[1] : 0;
}

/* A ratio, and the row that it is of. */
struct ratio {
    double ratio;
    const char *corpus, *what, *lists;
};

/* The largest of the rows so far: of the whole call, and without the check. */
struct largest {
    struct ratio whole, answer;
};

static void keep_larger(struct ratio *largest, struct ratio other)
{
    *largest = other.ratio > largest->ratio ? other : *largest;
}

static void show_row(const struct job *job, run *ours, run *old, const char *what, const char *lists, struct largest *largest)
{
    double best[4];
    best_of((run *const[]){ours, old, our_check, old_check}, 4, job, best);
    double whole = best[0] / best[1], answer = rest_ratio(best[0], best[2], best[1], best[3]);
    printf("%-10s %-22s %-12s %9.1f %9.1f %6.2f", job->corpus->name, what, lists, 1e6 * best[0], 1e6 * best[1], whole);
    show_rest(best[0], best[2], best[1], best[3]);
    printf("\n");
    keep_larger(&largest->whole, (struct ratio){whole, job->corpus->name, what, lists});
    keep_larger(&largest->answer, (struct ratio){answer, job->corpus->name, what, lists});
}

static void show_largest(const char *of, struct ratio largest)
{
    if (largest.ratio > 0) {
        printf("Largest ratio %s: %.2f (%s: %s%s%s)\n", of, largest.ratio, largest.corpus, largest.what, largest.lists[0] != 0 ? ": " : "", largest.lists);
    }
}

static struct engine_result plain(struct naburain_answered answered)
{
    return (struct engine_result){answered.refusal, answered.value, answered.intervals, answered.records};
}

void same_as_old(const struct job *job, uint32_t rule, uint32_t *old_cells)
{
    same(job->question, asked_by(job, rule, job->cells), plain(asked_old(job, rule, old_cells)), job->cells, old_cells);
}

static void beside_questions(struct job *job, uint32_t *old_cells, struct largest *largest)
{
    for (size_t i = 0; i < QUESTION_COUNT; i++) {
        job->question = QUESTIONS[i].question;
        same_as_old(job, FROM_LEFT, old_cells);
        show_row(job, our_ask, old_ask, QUESTIONS[i].what, "", largest);
    }
}

static void beside_joins(struct job *job, uint32_t *old_cells, struct largest *largest)
{
    for (size_t i = 0; i < METHOD_COUNT; i++) {
        for (size_t k = 0; k < ASKED_COUNT; k++) {
            job->join = METHODS[i].ours, job->old_join = METHODS[i].old;
            job->entries = ASKED[k].entries, job->entry_count = ASKED[k].count;
            struct naburain_answered got =
                job->join(job->corpus->index, job->corpus->length, job->entries, job->entry_count, job->cells, job->room);
            same(METHODS[i].what, got, plain(joined_old(job, old_cells)), job->cells, old_cells);
            show_row(job, our_join, old_join, METHODS[i].what, ASKED[k].what, largest);
        }
    }
}

void bench_beside(const struct corpus *corpora, size_t count, uint32_t *cells, uint32_t *old_cells, size_t room)
{
    printf("\nBeside an older archive (microseconds; best of 36): new, old, new over old; `answer` is without the check\n");
    printf("%-10s %-22s %-12s %9s %9s %6s %9s %9s %6s\n", "corpus", "question or method", "lists", "new", "old", "ratio", "answer", "old ans.",
           "ratio");
    struct largest largest = {0};
    for (size_t i = 0; i < count; i++) {
        struct job job = {.corpus = &corpora[i], .cells = cells, .room = room};
        beside_questions(&job, old_cells, &largest);
        beside_joins(&job, old_cells, &largest);
    }
    show_largest("of a whole call", largest.whole);
    show_largest("without the check", largest.answer);
}

#endif
