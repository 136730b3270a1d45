/* Indexes of many words with one record each, where the words' own rules are most of the check: the other corpora have thirty words. */
#ifndef WORDS_H
#define WORDS_H

/* The check and the build, by the letters of a word; beside an older archive where there is one. */
void bench_words(void);

#endif
