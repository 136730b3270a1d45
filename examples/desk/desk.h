/* The desk: a small front end over libnaburain. */
#ifndef DESK_H
#define DESK_H

#include "naburain.h"

/* How a command ended; main returns it. */
enum ended { ANSWERED = 0, REFUSED = 1, UNUSABLE = 2 };

/* A file's bytes, mapped for reading. */
struct mapped {
    const uint8_t *bytes;
    size_t length;
};

/* file.c */
int map_file(const char *path, struct mapped *file);
void unmap_file(struct mapped *file);
int write_file(const char *path, const uint8_t *bytes, size_t length);
void *grown(void *block, size_t count, size_t size);

/* number.c */
int given_number(const char *text, uint32_t *number);

/* answer.c */
enum ended answer_question(const struct mapped *index, uint32_t rule, const char *question);
enum ended prompt(const struct mapped *index, uint32_t rule);

/* neighbours.c */
enum ended show_neighbours(const struct mapped *index, const char *word);

/* catalogue.c */
enum ended build_catalogue(const char *text_path, const char *index_path, const char *highest);

/* refusal.c */
void explain(uint64_t refusal, uint64_t value);
enum ended explain_question(const char *question, uint64_t refusal, uint64_t value);

#endif
