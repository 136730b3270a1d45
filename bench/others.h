/* Other engines on the same data, where their libraries are here: CRoaring's run containers and SQLite's FTS5. Neither checks an index, so they are
 * compared with the answer alone. */
#ifndef OTHERS_H
#define OTHERS_H

#include "corpus.h"

/* A question as a tree: a word's entry, or an operator with two sides. */
struct tree {
    int operator; /* 'a', 'o', 'n', or 0 for a word */
    uint32_t entry;
    struct tree *left, *right;
};

struct tree *read_question(const char *question);
void free_tree(struct tree *tree);

/* Calls back with each stretch of an entry's list: first the singles, then the pairs. */
void each_stretch(const struct corpus *corpus, uint32_t entry, void (*take)(void *, uint32_t, uint32_t), void *with);

/* NULL where the library is not built in. An asker answers how many records satisfy the question. */
struct roaring;
struct roaring *roaring_open(const struct corpus *corpus);
uint64_t roaring_ask(struct roaring *roaring, const struct tree *question);
void roaring_close(struct roaring *roaring);

struct sqlite;
struct sqlite *sqlite_open(const struct corpus *corpus);
void sqlite_prepare_question(struct sqlite *sqlite, const struct tree *question);
uint64_t sqlite_ask(struct sqlite *sqlite);
void sqlite_close(struct sqlite *sqlite);

#endif
