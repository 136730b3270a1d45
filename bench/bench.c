/* Times and ratios, all in one run: the check, questions, joins and building. Answers are compared before anything is timed, and the two sides
 * of a ratio are timed in turns, best of many. */
#include "asked.h"
#include "beside.h"
#include "growth.h"
#include "methods.h"
#include "others.h"
#include "probing.h"
#include "reference.h"
#include "rules.h"
#include "words.h"

#include <stdio.h>
#include <stdlib.h>
#include <string.h>

static const struct kind KINDS[] = {
    {"catalogue", 300000, 6000, 60, 3},        /* long stretches */
    {"far", 16777215, 60000, 40, 3},           /* up to the last record */
    {"singles", 2000000, 200000, 1, 10},       /* no stretch at all */
    {"sparse", 16777215, 1000, 1, 10},         /* few records far apart: little to check, long jumps */
};

/* ---- what is timed: one call each ---- */

static void engine_checks(const struct job *job)
{
    sink += engine_check(job->corpus->index, job->corpus->length).refusal;
}

/* Four bytes at a time, as an array of cells. */
static void plain_sum(const struct job *job)
{
    uint64_t sum = 0;
    uint32_t cell;
    for (size_t i = 0; i + 4 <= job->corpus->length; i += 4) {
        memcpy(&cell, job->corpus->index + i, 4);
        sum += cell;
    }
    sink += sum;
}

static void engine_asks(const struct job *job)
{
    const struct corpus *c = job->corpus;
    sink += engine_ask(c->index, c->length, FROM_LEFT, (const uint8_t *)job->question, strlen(job->question), job->cells, job->room).records;
}

static void reference_checks(const struct job *job)
{
    sink += reference_check(job->corpus->index, job->corpus->length).refusal;
}

static void reference_asks(const struct job *job)
{
    const struct corpus *c = job->corpus;
    sink += reference_ask(c->index, c->length, FROM_LEFT, (const uint8_t *)job->question, strlen(job->question), job->cells, job->room).records;
}

static void engine_joins(const struct job *job)
{
    sink += job->engine_join(job->corpus->index, job->corpus->length, job->entries, job->entry_count, job->cells, job->room).records;
}

static void roaring_asks(const struct job *job)
{
    sink += roaring_ask(job->roaring, job->tree);
}

static void sqlite_asks(const struct job *job)
{
    sink += sqlite_ask(job->sqlite);
}

/* A plain sum over the cells of the lists of these entries, where they stand in the index. */
static void sum_lists(const struct job *job)
{
    const uint8_t *index = job->corpus->index, *trailer = index + job->corpus->length - 20;
    uint32_t directory, line[5], cell;
    uint64_t sum = 0;
    memcpy(&directory, trailer + 4, 4);
    for (size_t k = 0; k < job->entry_count; k++) {
        memcpy(line, index + directory + 20 * (size_t)job->entries[k], 20);
        size_t cells = line[3] + 2 * (size_t)line[4];
        for (size_t i = 0; i < cells; i++) {
            memcpy(&cell, index + line[2] + 4 * i, 4);
            sum += cell;
        }
    }
    sink += sum;
}

/* ---- the tables ---- */

static void bench_check(const struct corpus *corpora, size_t count)
{
    printf("\nThe index check (microseconds; best of 36)\n");
    printf("%-10s %10s %10s %10s %10s %12s %10s\n", "corpus", "bytes", "naburain", "C check", "plain sum", "naburain/C", "/sum");
    for (size_t i = 0; i < count; i++) {
        struct job job = {.corpus = &corpora[i]};
        double best[3];
        best_of((run *const[]){our_check, engine_checks, plain_sum}, 3, &job, best);
        printf("%-10s %10zu %10.1f %10.1f %10.1f %12.2f %10.1f\n", corpora[i].name, corpora[i].length, 1e6 * best[0], 1e6 * best[1],
               1e6 * best[2], best[0] / best[1], best[0] / best[2]);
    }
}

/* The entries that a question names: c0..c9 are 0..9, m0..m9 10..19, r0..r9 20..29. */
static size_t entries_of(const char *question, uint32_t *entries)
{
    size_t count = 0;
    for (const char *at = question; *at != 0; at++) {
        const char *kind = strchr("cmr", *at);
        if (kind != NULL && at[1] >= '0' && at[1] <= '9') {
            entries[count++] = (uint32_t)(10 * (kind - strchr("cmr", 'c')) + at[1] - '0');
        }
    }
    return count;
}

static void bench_questions(const struct corpus *corpus, uint32_t *ours, uint32_t *theirs, size_t room)
{
    for (size_t i = 0; i < QUESTION_COUNT; i++) {
        const char *question = QUESTIONS[i].question;
        uint32_t entries[16];
        struct job job = {.corpus = corpus, .question = question, .entries = entries, .cells = ours, .room = room};
        job.entry_count = entries_of(question, entries);
        struct naburain_answered got = asked_by(&job, FROM_LEFT, ours);
        struct engine_result held =
            engine_ask(corpus->index, corpus->length, FROM_LEFT, (const uint8_t *)question, strlen(question), theirs, room);
        same(question, got, held, ours, theirs);
        double best[5];
        best_of((run *const[]){our_ask, engine_asks, our_check, engine_checks, sum_lists}, 5, &job, best);
        printf("%-10s %-22s %9d %9.1f %9.1f %6.2f", corpus->name, QUESTIONS[i].what, (int)got.intervals, 1e6 * best[0], 1e6 * best[1],
               best[0] / best[1]);
        show_rest(best[0], best[2], best[1], best[3]);
        if (tells(best[0], best[2])) {
            printf(" %9.2f %7.1f\n", 1e6 * best[4], (best[0] - best[2]) / best[4]);
        } else {
            printf(" %9.2f %7s\n", 1e6 * best[4], "-");
        }
    }
}

/* The methods against the same methods in C. */
static const struct method IN_C[] = {
    {"scan line", naburain_union_scan_line, NULL, method_scan_line, NULL},
    {"scan line, by value", naburain_union_scan_line, NULL, method_scan_line_by_value, NULL},
    {"active interval", naburain_union_active_interval, NULL, method_active_interval, NULL},
    {"twin heap", naburain_intersection_twin_heap, NULL, method_twin_heap, NULL},
    {"probing", naburain_intersection_probing, NULL, method_probing, NULL},
    {"probing, from start", naburain_intersection_probing, NULL, method_probing_from_start, NULL},
};

static const struct lists SIXTEEN = {"16 lists", {0, 1, 2, 3, 4, 5, 6, 7, 8, 9, 10, 11, 12, 13, 14, 15}, 16};

/* One join against the C engine, or against the reference. */
static void bench_join(const struct corpus *corpus, const struct method *method, const struct lists *lists, int against_reference,
                       uint32_t *ours, uint32_t *theirs, size_t room)
{
    struct job job = {.corpus = corpus, .entries = lists->entries, .entry_count = lists->count, .cells = ours, .room = room,
                      .join = method->ours, .engine_join = against_reference ? method->reference : method->engine};
    struct naburain_answered got = job.join(corpus->index, corpus->length, lists->entries, lists->count, ours, room);
    struct engine_result held = job.engine_join(corpus->index, corpus->length, lists->entries, lists->count, theirs, room);
    same(method->what, got, held, ours, theirs);
    double best[4];
    best_of((run *const[]){our_join, engine_joins, our_check, against_reference ? reference_checks : engine_checks}, 4, &job, best);
    printf("%-10s %-22s %-12s %9d %9.1f %9.1f %6.2f", corpus->name, method->what, lists->what, (int)got.intervals, 1e6 * best[0],
           1e6 * best[1], best[0] / best[1]);
    show_rest(best[0], best[2], best[1], best[3]);
    printf("\n");
}

static void bench_joins(const struct corpus *corpus, int against_reference, uint32_t *ours, uint32_t *theirs, size_t room)
{
    for (size_t k = 0; k < METHOD_COUNT; k++) {
        for (size_t i = 0; i < ASKED_COUNT; i++) {
            bench_join(corpus, &METHODS[k], &ASKED[i], against_reference, ours, theirs, room);
        }
    }
}

static void bench_methods(const struct corpus *corpus, uint32_t *ours, uint32_t *theirs, size_t room)
{
    for (size_t k = 0; k < sizeof IN_C / sizeof IN_C[0]; k++) {
        bench_join(corpus, &IN_C[k], &ASKED[0], 0, ours, theirs, room);
        bench_join(corpus, &IN_C[k], &SIXTEEN, 0, ours, theirs, room);
    }
}

/* Questions and joins against the independent implementation, which makes the same check. */
static void bench_reference(const struct corpus *corpus, uint32_t *ours, uint32_t *theirs, size_t room)
{
    for (size_t i = 0; i < QUESTION_COUNT; i++) {
        const char *question = QUESTIONS[i].question;
        struct job job = {.corpus = corpus, .question = question, .cells = ours, .room = room};
        struct naburain_answered got = asked_by(&job, FROM_LEFT, ours);
        struct engine_result held =
            reference_ask(corpus->index, corpus->length, FROM_LEFT, (const uint8_t *)question, strlen(question), theirs, room);
        same(question, got, held, ours, theirs);
        double best[4];
        best_of((run *const[]){our_ask, reference_asks, our_check, reference_checks}, 4, &job, best);
        printf("%-10s %-22s %-12s %9d %9.1f %9.1f %6.2f", corpus->name, QUESTIONS[i].what, "", (int)got.intervals, 1e6 * best[0], 1e6 * best[1],
               best[0] / best[1]);
        show_rest(best[0], best[2], best[1], best[3]);
        printf("\n");
    }
    bench_joins(corpus, 1, ours, theirs, room);
}

static void held_to(const char *who, const char *question, uint64_t records, uint64_t theirs)
{
    if (records != theirs) {
        printf("FAILED: %s answers %s with %d records, and not %d\n", who, question, (int)theirs, (int)records);
        exit(1);
    }
}

/* The answer alone against one other engine that is here; a dash where the check is nearly all. */
static void show_other(const char *who, const char *question, run *theirs, struct job *job, double whole, double check)
{
    double best, answer = whole - check;
    best_of(&theirs, 1, job, &best);
    printf("%-10s %-22s %-8s", job->corpus->name, question, who);
    if (tells(whole, check)) {
        printf(" %10.1f %10.1f %8.2f\n", 1e6 * answer, 1e6 * best, answer / best);
    } else {
        printf(" %10s %10.1f %8s\n", "-", 1e6 * best, "-");
    }
}

static void bench_others(const struct corpus *corpus, uint32_t *cells, size_t room)
{
    struct job job = {.corpus = corpus, .cells = cells, .room = room, .roaring = roaring_open(corpus), .sqlite = sqlite_open(corpus)};
    for (size_t i = 0; i < QUESTION_COUNT; i++) {
        job.question = QUESTIONS[i].question;
        job.tree = read_question(job.question);
        uint64_t records = asked_by(&job, FROM_LEFT, cells).records;
        double best[2];
        best_of((run *const[]){our_ask, our_check}, 2, &job, best);
        if (job.roaring != NULL) {
            held_to("CRoaring", job.question, records, roaring_ask(job.roaring, job.tree));
            show_other("CRoaring", QUESTIONS[i].what, roaring_asks, &job, best[0], best[1]);
        }
        if (job.sqlite != NULL) {
            sqlite_prepare_question(job.sqlite, job.tree);
            held_to("FTS5", job.question, records, sqlite_ask(job.sqlite));
            show_other("FTS5", QUESTIONS[i].what, sqlite_asks, &job, best[0], best[1]);
        }
        free_tree(job.tree);
    }
    if (job.roaring != NULL) {
        roaring_close(job.roaring);
    }
    if (job.sqlite != NULL) {
        sqlite_close(job.sqlite);
    }
}

/* Building from ten times as many numbers, again and again: the time for one number should stay. */
static void bench_build(void)
{
    printf("\nBuilding (best of 5)\n%10s %12s %12s %14s %12s\n", "numbers", "bytes", "milliseconds", "ns a number", "/plain sum");
    uint8_t *bytes = must(malloc(NABURAIN_INDEX_MAX));
    for (uint32_t count = 1000; count <= 10000000; count *= 10) {
        uint32_t *numbers = must(malloc(count * sizeof *numbers));
        uint64_t state = 7;
        uint32_t record = 0, room_left = 16777215 - count;
        for (uint32_t i = 0; i < count; i++) { /* a gap in one of ten places, as long as records are left */
            uint32_t gap = next_random(&state) % 10 == 0 && room_left > 0 ? 1 : 0;
            room_left -= gap;
            record += 1 + gap;
            numbers[i] = record;
        }
        double best = 1e9, sum_best = 1e9;
        struct naburain_written built = {0, 0, 0};
        for (int round = 0; round < 5; round++) {
            double began = seconds();
            built = naburain_build(16777215, (const uint8_t *)"word\n", 5, &count, 1, numbers, count, bytes, NABURAIN_INDEX_MAX);
            double took = seconds() - began;
            best = took < best ? took : best;
            began = seconds();
            uint64_t sum = 0;
            for (uint32_t i = 0; i < count; i++) {
                sum += numbers[i];
            }
            sink += sum;
            took = seconds() - began;
            sum_best = took < sum_best ? took : sum_best;
        }
        if (built.refusal != 0) {
            printf("%10u refused by %d with %d\n", count, (int)built.refusal, (int)built.value);
        } else {
            printf("%10u %12d %12.3f %14.2f %12.1f\n", count, (int)built.written, 1e3 * best, 1e9 * best / count, best / sum_best);
        }
        free(numbers);
    }
    free(bytes);
}

/* What every table is made from: the corpora, and room for the cells of two engines. */
struct bench {
    struct corpus *corpora;
    size_t count;
    uint32_t *ours, *theirs;
    size_t room;
};

static void table_check(const struct bench *b)
{
    bench_check(b->corpora, b->count);
}

static void table_questions(const struct bench *b)
{
    printf("\nQuestions (microseconds; best of 36): both sides check the whole index, read the question and answer it; `answer` is without the check\n");
    printf("%-10s %-22s %9s %9s %9s %6s %9s %9s %6s %9s %7s\n", "corpus", "question", "intervals", "naburain", "C engine", "ratio", "answer",
           "C answer", "ratio", "list sum", "ans/sum");
    for (size_t i = 0; i < b->count; i++) {
        bench_questions(&b->corpora[i], b->ours, b->theirs, b->room);
    }
}

static void table_joins(const struct bench *b)
{
    printf("\nJoins (as questions; the C engine's union and intersection are its windows)\n");
    printf("%-10s %-22s %-12s %9s %9s %9s %6s %9s %9s %6s\n", "corpus", "method", "lists", "intervals", "naburain", "C engine", "ratio", "answer",
           "C answer", "ratio");
    for (size_t i = 0; i < b->count; i++) {
        bench_joins(&b->corpora[i], 0, b->ours, b->theirs, b->room);
    }
}

static void table_methods(const struct bench *b)
{
    printf("\nJoins by the same method in C: places moved on in one array, and, `by value`, all 16 handed on at each step\n");
    printf("%-10s %-22s %-12s %9s %9s %9s %6s %9s %9s %6s\n", "corpus", "method", "lists", "intervals", "naburain", "C", "ratio", "answer", "C answer",
           "ratio");
    for (size_t i = 0; i < b->count; i++) {
        bench_methods(&b->corpora[i], b->ours, b->theirs, b->room);
    }
}

static void table_growth(const struct bench *b)
{
    bench_growth(b->ours, b->room);
}

static void table_rust(const struct bench *b)
{
    printf("\nThe independent Rust implementation (microseconds; best of 36): both sides check the whole index and answer; `answer` is without the check\n");
    printf("%-10s %-22s %-12s %9s %9s %9s %6s %9s %9s %6s\n", "corpus", "question or method", "lists", "intervals", "naburain", "Rust", "ratio",
           "answer", "Rust ans.", "ratio");
    for (size_t i = 0; i < b->count; i++) {
        bench_reference(&b->corpora[i], b->ours, b->theirs, b->room);
    }
}

static void table_others(const struct bench *b)
{
    printf("\nOther engines, where their libraries are here (microseconds; `answer` is naburain's without the check, which the others do not make)\n");
    printf("%-10s %-22s %-8s %10s %10s %8s\n", "corpus", "question", "engine", "answer", "engine", "ratio");
    for (size_t i = 0; i < b->count; i++) {
        bench_others(&b->corpora[i], b->ours, b->room);
    }
}

static void table_probing(const struct bench *b)
{
    bench_probing(b->ours, b->theirs, b->room);
}

static void table_beside(const struct bench *b)
{
    bench_beside(b->corpora, b->count, b->ours, b->theirs, b->room);
}

static void table_build(const struct bench *b)
{
    (void)b;
    bench_build();
}

static void table_words(const struct bench *b)
{
    (void)b;
    bench_words();
}

static void table_rules(const struct bench *b)
{
    bench_rules(b->corpora, b->count, b->ours, b->theirs, b->room);
}

static const struct {
    const char *name;
    void (*print)(const struct bench *b);
} TABLES[] = {{"check", table_check},     {"questions", table_questions}, {"joins", table_joins}, {"methods", table_methods},
              {"growth", table_growth},   {"probing", table_probing},     {"rust", table_rust},   {"others", table_others},
              {"beside", table_beside},   {"build", table_build},         {"words", table_words},
              {"rules", table_rules}};

/* Prints all tables, or those whose name is given. */
static int print_tables(const struct bench *b, const char *name)
{
    int printed = 0;
    for (size_t i = 0; i < sizeof TABLES / sizeof TABLES[0]; i++) {
        if (name == NULL || strcmp(name, TABLES[i].name) == 0) {
            TABLES[i].print(b);
            printed = 1;
        }
    }
    return printed;
}

static int usage(void)
{
    fprintf(stderr, "bench [TABLE]: all tables, or one of");
    for (size_t i = 0; i < sizeof TABLES / sizeof TABLES[0]; i++) {
        fprintf(stderr, " %s", TABLES[i].name);
    }
    fprintf(stderr, "\n");
    return 2;
}

int main(int count, char **words)
{
    enum { COUNT = sizeof KINDS / sizeof KINDS[0], ROOM = 8 << 20 };
    struct corpus corpora[COUNT];
    struct bench b = {corpora, COUNT, must(malloc(ROOM * sizeof *b.ours)), must(malloc(ROOM * sizeof *b.theirs)), ROOM};
    printf("Corpora\n%-10s %10s %10s %12s\n", "corpus", "N", "bytes", "records");
    for (size_t i = 0; i < COUNT; i++) {
        corpora[i] = make_corpus(&KINDS[i]);
        printf("%-10s %10u %10zu %12zu\n", corpora[i].name, corpora[i].highest, corpora[i].length, corpora[i].numbers);
    }
    int status = print_tables(&b, count > 1 ? words[1] : NULL) ? 0 : usage();
    for (size_t i = 0; i < COUNT; i++) {
        free_corpus(&corpora[i]);
    }
    free(b.ours), free(b.theirs);
    return status;
}
