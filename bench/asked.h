/* What is asked of every corpus: questions, and joins by each of the library's methods. */
#ifndef ASKED_H
#define ASKED_H

#include "timing.h"

enum { QUESTION_COUNT = 8, METHOD_COUNT = 4, ASKED_COUNT = 2 };

struct question {
    const char *what, *question;
};

extern const struct question QUESTIONS[QUESTION_COUNT];

/* A method of the library, of an older archive of it where one is beside, and those that it is held against. */
struct method {
    const char *what;
    our_join_call *ours, *old;
    join_call *engine;
    join_call *reference;
};

extern const struct method METHODS[METHOD_COUNT];

struct lists {
    const char *what;
    uint32_t entries[16];
    size_t count;
};

extern const struct lists ASKED[ASKED_COUNT];

#endif
