/* Corpora to ask: ten common, ten middling and ten rare words (c0..c9, m0..m9, r0..r9) over records 1 to N, from a fixed seed. */
#ifndef CORPUS_H
#define CORPUS_H

#include <stddef.h>
#include <stdint.h>

struct corpus {
    const char *name;
    uint32_t highest;
    uint8_t *index; /* made by naburain_build */
    size_t length;
    size_t numbers; /* records of all lists together */
};

/* What a kind of corpus is made of: stretches of 1 to `longest` records; how many a common word has, a middling one a tenth, a rare one
 * a thousandth, and at least three. */
struct kind {
    const char *name;
    uint32_t highest;
    uint32_t stretches;
    uint32_t longest;
    uint32_t singles_in_ten; /* of ten stretches so many are single records */
};

struct corpus make_corpus(const struct kind *kind);

/* One of words of its own, each on a line and in order, with so many stretches each, far enough apart that none is lost. */
struct corpus make_corpus_of(const struct kind *kind, const char *words, const uint32_t *stretches, size_t count);

void free_corpus(struct corpus *corpus);

uint64_t next_random(uint64_t *state);
double seconds(void);
void *must(void *block);

#endif
