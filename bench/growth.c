#include "asked.h"
#include "beside.h"
#include "growth.h"
#include "probing.h"

#include <math.h>
#include <stdio.h>
#include <stdlib.h>

/* How many intervals the list of an entry has, from its directory entry: singles and pairs. */
static uint64_t intervals_of(const struct corpus *corpus, uint32_t entry)
{
    uint32_t directory, singles, pairs;
    memcpy(&directory, corpus->index + corpus->length - 16, 4);
    memcpy(&singles, corpus->index + directory + 20 * entry + 12, 4);
    memcpy(&pairs, corpus->index + directory + 20 * entry + 16, 4);
    return (uint64_t)singles + pairs;
}

/* The steps that a method may take: intervals times the logarithm of the lists, or, for probing, the shortest list's intervals times, for each
 * other list, the logarithm of one more than how many of its intervals there are for one of the shortest. */
static double steps_of(const struct corpus *corpus, const uint32_t *entries, size_t count, int probing)
{
    double all = 0, shortest = 1e9, logs = 0;
    for (size_t i = 0; i < count; i++) {
        double n = (double)intervals_of(corpus, entries[i]);
        all += n;
        shortest = n < shortest ? n : shortest;
    }
    for (size_t i = 0; i < count; i++) {
        logs += log2(1 + (double)intervals_of(corpus, entries[i]) / shortest);
    }
    return probing ? shortest * (logs - 1) : all * log2((double)count); /* less the shortest list's own logarithm, 1 */
}

void bench_growth(uint32_t *cells, size_t room)
{
    static const uint32_t FEW[] = {0, 1, 2, 3}, MANY[] = {0, 1, 2, 3, 4, 5, 6, 7, 8, 9, 10, 11, 12, 13, 14, 15}, SHORT[] = {10, 0, 1, 2};
    printf("\nJoins that grow (without the check; best of 36)\n%-22s %6s %12s %12s %14s\n", "method", "lists", "steps", "microseconds", "ns a step");
    for (uint32_t stretches = 1000; stretches <= 100000; stretches *= 10) {
        struct corpus corpus = make_corpus(&(struct kind){"growing", 16777215, stretches, 8, 5});
        for (size_t i = 0; i < METHOD_COUNT; i++) {
            int probing = METHODS[i].ours == naburain_intersection_probing;
            const uint32_t *lists[] = {FEW, probing ? SHORT : MANY};
            const size_t counts[] = {4, probing ? 4 : 16};
            for (int j = 0; j < 2; j++) {
                struct job job = {.corpus = &corpus, .entries = lists[j], .entry_count = counts[j], .cells = cells, .room = room, .join = METHODS[i].ours};
                double best[2], steps = steps_of(&corpus, lists[j], counts[j], probing);
                best_of((run *const[]){our_join, our_check}, 2, &job, best);
                double answer = best[0] > best[1] ? best[0] - best[1] : 0;
                printf("%-22s %6zu %12.0f %12.1f %14.2f\n", METHODS[i].what, counts[j], steps, 1e6 * answer, 1e9 * answer / steps);
            }
        }
        free_corpus(&corpus);
    }
}

/* ---- probing, list by list ---- */

static void forward(const struct job *job)
{
    struct request request = *job->request;
    probe_forward(&request);
    sink += request.records;
}

static void from_start(const struct job *job)
{
    struct request request = *job->request;
    probe_from_start(&request);
    sink += request.records;
}

/* Microseconds, or a dash where there are none. */
static void show_time(double seconds)
{
    if (seconds > 0) {
        printf(" %9.1f", 1e6 * seconds);
    } else {
        printf(" %9s", "-");
    }
}

static void counted_within(const struct request *request, struct work work)
{
    if ((double)work.cells > most_work(request, &work)) {
        printf("FAILED: %d cells were looked at, and may be %.0f\n", (int)work.cells, most_work(request, &work));
        exit(1);
    }
}

/* One short list with one long one. */
static void probing_row(const struct corpus *corpus, const uint32_t *entries, uint32_t *ours, uint32_t *theirs, size_t room)
{
    struct request opened, counted;
    struct naburain_answered got = naburain_intersection_probing(corpus->index, corpus->length, entries, 2, ours, room);
    same("probing", got, method_probing(corpus->index, corpus->length, entries, 2, theirs, room), ours, theirs);
    same("probing from the start", got, method_probing_from_start(corpus->index, corpus->length, entries, 2, theirs, room), ours, theirs);
    open_request(&opened, corpus->index, corpus->length, entries, 2, theirs, room);
    counted = opened;
    struct work now = forward_work(&counted);
    counted = opened;
    struct work before = from_start_work(&counted);
    counted_within(&opened, now);
    struct job job = {.corpus = corpus, .entries = entries, .entry_count = 2, .cells = ours, .room = room, .join = naburain_intersection_probing,
                      .old_join = OLD(naburain_intersection_probing), .request = &opened};
    double best[4], shortest = (double)intervals_of(corpus, entries[0]);
    best_of((run *const[]){our_join, our_check, forward, from_start}, 4, &job, best);
    printf("%7d %8d", (int)intervals_of(corpus, entries[0]), (int)intervals_of(corpus, entries[1]));
    show_time(tells(best[0], best[1]) ? best[0] - best[1] : 0);
    show_time(old_answer(&job));
    printf(" %9.1f %9.1f %6.2f %9d %9d %8.1f %8.1f %6.2f\n", 1e6 * best[2], 1e6 * best[3], best[2] / best[3], (int)now.cells, (int)before.cells,
           (double)now.cells / shortest, (double)before.cells / shortest, (double)now.cells / most_work(&opened, &now));
}

void bench_probing(uint32_t *ours, uint32_t *theirs, size_t room)
{
    static const uint32_t STRETCHES[] = {100, 1000, 10000, 10000, 100000, 1000000};
    enum { COUNT = sizeof STRETCHES / sizeof STRETCHES[0], LONG = 3 };
    struct corpus corpus = make_corpus_of(&(struct kind){"probing", 16777215, 0, 8, 5}, "a\nb\nc\nd\ne\nf\n", STRETCHES, COUNT);
    printf("\nProbing, where one list grows (microseconds without the check; best of 36)\n"
           "`old` is of the archive beside; `C` is the same method in C, going on from the last place and from the start; cells are those of the long list\n"
           "that these two look at, and `of may` says what part of the most that going on may look at it does\n");
    printf("%7s %8s %9s %9s %9s %9s %6s %9s %9s %8s %8s %6s\n", "short", "long", "naburain", "old", "C on", "C start", "ratio", "cells on", "start",
           "an int.", "start", "of may");
    for (uint32_t i = 0; i < COUNT; i++) {
        for (uint32_t k = i < LONG ? LONG : i + 1; k < COUNT; k++) {
            if (i != LONG) { /* the second of the two equal ones is a long list only */
                probing_row(&corpus, (const uint32_t[]){i, k}, ours, theirs, room);
            }
        }
    }
    free_corpus(&corpus);
}
