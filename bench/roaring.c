/* CRoaring: a bitmap for each word, with run containers where they are smaller. */
#include "others.h"

#include <stdlib.h>

#ifdef HAVE_ROARING
#include <roaring/roaring.h>

enum { WORDS = 30 };

struct roaring {
    roaring_bitmap_t *words[WORDS];
};

static void add(void *bitmap, uint32_t l, uint32_t u)
{
    roaring_bitmap_add_range_closed(bitmap, l, u);
}

struct roaring *roaring_open(const struct corpus *corpus)
{
    struct roaring *roaring = must(malloc(sizeof *roaring));
    for (uint32_t i = 0; i < WORDS; i++) {
        roaring->words[i] = roaring_bitmap_create();
        each_stretch(corpus, i, add, roaring->words[i]);
        roaring_bitmap_run_optimize(roaring->words[i]);
    }
    return roaring;
}

/* The words' own bitmaps are read; what a part answers is new. */
static const roaring_bitmap_t *evaluate(struct roaring *roaring, const struct tree *tree, roaring_bitmap_t **own)
{
    *own = NULL;
    if (tree->operator == 0) {
        return roaring->words[tree->entry];
    }
    roaring_bitmap_t *left_own, *right_own;
    const roaring_bitmap_t *left = evaluate(roaring, tree->left, &left_own), *right = evaluate(roaring, tree->right, &right_own);
    *own = tree->operator == 'a' ? roaring_bitmap_and(left, right)
           : tree->operator == 'o' ? roaring_bitmap_or(left, right)
                                   : roaring_bitmap_andnot(left, right);
    if (left_own != NULL) {
        roaring_bitmap_free(left_own);
    }
    if (right_own != NULL) {
        roaring_bitmap_free(right_own);
    }
    return *own;
}

uint64_t roaring_ask(struct roaring *roaring, const struct tree *question)
{
    roaring_bitmap_t *own;
    uint64_t records = roaring_bitmap_get_cardinality(evaluate(roaring, question, &own));
    if (own != NULL) {
        roaring_bitmap_free(own);
    }
    return records;
}

void roaring_close(struct roaring *roaring)
{
    for (uint32_t i = 0; i < WORDS; i++) {
        roaring_bitmap_free(roaring->words[i]);
    }
    free(roaring);
}

#else

struct roaring *roaring_open(const struct corpus *corpus)
{
    (void)corpus;
    return NULL;
}

uint64_t roaring_ask(struct roaring *roaring, const struct tree *question)
{
    (void)roaring, (void)question;
    return 0;
}

void roaring_close(struct roaring *roaring)
{
    (void)roaring;
}

#endif
