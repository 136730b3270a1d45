#include "words.h"

#include "beside.h"
#include "engine.h"

#include <stdio.h>
#include <stdlib.h>

enum { MOST = 60000, LONGEST = 16, HIGHEST = 1000, ALPHABET = 62 };

/* What is lent to a build. */
static struct {
    uint8_t words[MOST * (LONGEST + 1)];
    size_t words_length;
    uint32_t counts[MOST], numbers[MOST];
    size_t count;
    uint8_t *bytes;
    size_t room;
} lent;

/* Of the bytes of a word, | 32 changes the capital letters alone. */
static int is_operator(const uint8_t *word, size_t letters)
{
    uint8_t small[3] = {word[0] | 32, word[1] | 32, letters > 2 ? word[2] | 32 : 0};
    return (letters == 2 && memcmp(small, "or", 2) == 0) || (letters == 3 && (memcmp(small, "and", 3) == 0 || memcmp(small, "not", 3) == 0));
}

/* Words of so many letters in ascending order, spread evenly: the first letters tell them apart, the rest is drawn. */
static void lend_words(size_t letters)
{
    static const char LETTERS[] = "0123456789ABCDEFGHIJKLMNOPQRSTUVWXYZabcdefghijklmnopqrstuvwxyz";
    size_t telling = letters < 3 ? letters : 3;
    uint64_t all = telling == 2 ? ALPHABET * ALPHABET : ALPHABET * ALPHABET * ALPHABET, wanted = all < MOST ? all : MOST, state = 7;
    lent.words_length = lent.count = 0;
    for (uint64_t i = 0; i < wanted; i++) {
        uint8_t *word = lent.words + lent.words_length;
        uint64_t rest = i * all / wanted;
        for (size_t k = telling; k-- > 0; rest /= ALPHABET) {
            word[k] = (uint8_t)LETTERS[rest % ALPHABET];
        }
        for (size_t k = telling; k < letters; k++) {
            word[k] = (uint8_t)LETTERS[next_random(&state) % ALPHABET];
        }
        if (!is_operator(word, letters)) {
            word[letters] = 10;
            lent.words_length += letters + 1;
            lent.counts[lent.count] = 1;
            lent.numbers[lent.count++] = 1 + (uint32_t)(next_random(&state) % HIGHEST);
        }
    }
}

static void our_build(const struct job *job)
{
    (void)job;
    sink += naburain_build(HIGHEST, lent.words, lent.words_length, lent.counts, lent.count, lent.numbers, lent.count, lent.bytes, lent.room).written;
}

static void engine_checks(const struct job *job)
{
    sink += engine_check(job->corpus->index, job->corpus->length).refusal;
}

#ifdef HAVE_OLD
static void old_build(const struct job *job)
{
    (void)job;
    sink += old_naburain_build(HIGHEST, lent.words, lent.words_length, lent.counts, lent.count, lent.numbers, lent.count, lent.bytes, lent.room).written;
}
#endif

static run *const RUNS[] = {
    our_check,
    engine_checks,
    our_build,
#ifdef HAVE_OLD
    old_check,
    old_build,
#endif
};

static void show_row(size_t letters, const struct job *job)
{
    enum { COUNT = sizeof RUNS / sizeof RUNS[0] };
    double best[COUNT];
    best_of(RUNS, COUNT, job, best);
    printf("%7zu %7zu %9zu %9.1f %9.1f %6.2f %9.1f", letters, lent.count, job->corpus->length, 1e6 * best[0], 1e6 * best[1], best[0] / best[1], 1e6 * best[2]);
#ifdef HAVE_OLD
    printf(" %9.1f %6.2f %9.1f %6.2f\n", 1e6 * best[3], best[0] / best[3], 1e6 * best[4], best[2] / best[4]);
#else
    printf(" %9s %6s %9s %6s\n", "-", "-", "-", "-");
#endif
}

void bench_words(void)
{
    static const size_t LETTERS[] = {2, 3, 4, 8, LONGEST};
    printf("\nMany words with one record each (microseconds; best of 36): the check and the build; `old` is of an older archive, and the ratio new over old\n");
    printf("%7s %7s %9s %9s %9s %6s %9s %9s %6s %9s %6s\n", "letters", "words", "bytes", "check", "C check", "ratio", "build", "old check", "ratio",
           "old build", "ratio");
    lent.room = MOST * (LONGEST + 28) + 20;
    lent.bytes = must(malloc(lent.room));
    for (size_t i = 0; i < sizeof LETTERS / sizeof LETTERS[0]; i++) {
        lend_words(LETTERS[i]);
        struct naburain_written built =
            naburain_build(HIGHEST, lent.words, lent.words_length, lent.counts, lent.count, lent.numbers, lent.count, lent.bytes, lent.room);
        struct corpus corpus = {"words", HIGHEST, lent.bytes, (size_t)built.written, lent.count};
        if (built.refusal != 0 || engine_check(corpus.index, corpus.length).refusal != 0) {
            printf("FAILED: refused by %d with %d\n", (int)built.refusal, (int)built.value);
            exit(1);
        }
        show_row(LETTERS[i], &(struct job){.corpus = &corpus});
    }
    free(lent.bytes);
}
