#include "others.h"

#include <ctype.h>
#include <stdlib.h>
#include <string.h>

/* ---- questions as trees; only sound questions are read ---- */

static struct tree *node(int operator, uint32_t entry, struct tree *left, struct tree *right)
{
    struct tree *tree = must(malloc(sizeof *tree));
    *tree = (struct tree){operator, entry, left, right};
    return tree;
}

static struct tree *read_level(const char **at);

static struct tree *read_operand(const char **at)
{
    *at += strspn(*at, " ");
    if (**at == '(') {
        ++*at;
        struct tree *inner = read_level(at);
        *at += strspn(*at, " ") + 1;
        return inner;
    }
    uint32_t row = **at == 'c' ? 0 : **at == 'm' ? 10 : 20;
    *at += 2;
    return node(0, row + (uint32_t)((*at)[-1] - '0'), NULL, NULL);
}

static struct tree *read_level(const char **at)
{
    struct tree *left = read_operand(at);
    for (*at += strspn(*at, " "); islower((unsigned char)**at); *at += strspn(*at, " ")) {
        int operator = **at;
        while (islower((unsigned char)**at)) {
            ++*at;
        }
        left = node(operator, 0, left, read_operand(at));
    }
    return left;
}

struct tree *read_question(const char *question)
{
    return read_level(&question);
}

void free_tree(struct tree *tree)
{
    if (tree != NULL) {
        free_tree(tree->left);
        free_tree(tree->right);
        free(tree);
    }
}

/* ---- lists of the index ---- */

static uint32_t cell(const uint8_t *at)
{
    uint32_t value;
    memcpy(&value, at, 4);
    return value;
}

void each_stretch(const struct corpus *corpus, uint32_t entry, void (*take)(void *, uint32_t, uint32_t), void *with)
{
    const uint8_t *line = corpus->index + cell(corpus->index + corpus->length - 16) + 20 * (size_t)entry;
    const uint8_t *list = corpus->index + cell(line + 8);
    size_t singles = cell(line + 12), pairs = cell(line + 16);
    for (size_t i = 0; i < singles; i++) {
        take(with, cell(list + 4 * i), cell(list + 4 * i));
    }
    for (size_t i = 0; i < pairs; i++) {
        take(with, cell(list + 4 * (singles + i)), cell(list + 4 * (singles + pairs + i)));
    }
}
