/* desk [--rule N] INDEX QUESTION..  answers a question, grouped by rule 1 or by rule N
 * desk [--rule N] INDEX             asks for questions
 * desk lookup INDEX WORD            shows a word with its neighbours, or those of the place where it would stand
 * desk build TEXT INDEX [HIGHEST]   builds an index from a text */
#include "desk.h"

#include <stdio.h>
#include <stdlib.h>
#include <string.h>

static int usage(void)
{
    fprintf(stderr, "desk [--rule N] INDEX QUESTION..  answers a question, as: desk sample.index 'boats or (harbour and maps)'\n"
                    "desk [--rule N] INDEX             asks for questions, one a line\n"
                    "desk lookup INDEX WORD            shows a word with its neighbours, or where a misspelt one would stand\n"
                    "desk build TEXT INDEX [HIGHEST]   builds an index from lines `word: number number-number ..`\n"
                    "\n"
                    "Where there are no brackets, rule 1, which is taken unless another is given, groups the operators from the left, whatever\n"
                    "they are; rule 2 groups `and` and `not` before `or`, and equals from the left. So of the sample catalogue\n"
                    "  desk --rule 1 sample.index boats or harbour and maps   asks '(boats or harbour) and maps', and finds 2 records\n"
                    "  desk --rule 2 sample.index boats or harbour and maps   asks 'boats or (harbour and maps)', and finds 76\n");
    return UNUSABLE;
}

/* The words of the command line with a space between. */
static char *joined(int count, char **words)
{
    size_t length = 1;
    for (int i = 0; i < count; i++) {
        length += strlen(words[i]) + 1;
    }
    char *text = grown(NULL, length, 1);
    text[0] = 0;
    for (int i = 0; i < count; i++) {
        strcat(text, i > 0 ? " " : "");
        strcat(text, words[i]);
    }
    return text;
}

static enum ended ask(const struct mapped *index, uint32_t rule, int count, char **words)
{
    if (count == 0) {
        return prompt(index, rule);
    }
    char *question = joined(count, words);
    enum ended ended = answer_question(index, rule, question);
    free(question);
    return ended;
}

int main(int count, char **words)
{
    if (count >= 2 && strcmp(words[1], "build") == 0) {
        return count == 4 || count == 5 ? (int)build_catalogue(words[2], words[3], words[4]) : usage();
    }
    int lookup = count >= 2 && strcmp(words[1], "lookup") == 0, by_rule = count >= 2 && strcmp(words[1], "--rule") == 0;
    int path = by_rule ? 3 : lookup ? 2 : 1;
    if (count <= path || words[path][0] == '-' || (lookup && count != 4)) {
        return usage();
    }
    uint32_t rule = 1;
    if (by_rule && !given_number(words[2], &rule)) {
        fprintf(stderr, "desk: %s is no rule's number\n", words[2]);
        return UNUSABLE;
    }
    struct mapped index;
    if (!map_file(words[path], &index)) {
        return UNUSABLE;
    }
    enum ended ended = lookup ? show_neighbours(&index, words[3]) : ask(&index, rule, count - path - 1, words + path + 1);
    unmap_file(&index);
    return ended;
}
