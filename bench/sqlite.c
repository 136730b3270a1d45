/* SQLite's FTS5, in memory: a row for each record, with the words that it stands under. Only for corpora of up to 300,000 records. */
#include "others.h"

#include <stdio.h>
#include <stdlib.h>
#include <string.h>

#ifdef HAVE_SQLITE
#include <sqlite3.h>

enum { WORDS = 30, MOST_RECORDS = 300000 };

struct sqlite {
    sqlite3 *database;
    sqlite3_stmt *statement;
};

static void do_or_die(sqlite3 *database, const char *text)
{
    if (sqlite3_exec(database, text, NULL, NULL, NULL) != SQLITE_OK) {
        fprintf(stderr, "bench: SQLite: %s\n", sqlite3_errmsg(database));
        exit(2);
    }
}

struct marking {
    uint32_t *words_of;
    uint32_t bit;
};

static void mark(void *with, uint32_t l, uint32_t u)
{
    struct marking *marking = with;
    for (uint32_t record = l; record <= u; record++) {
        marking->words_of[record] |= marking->bit;
    }
}

static void insert_rows(sqlite3 *database, const uint32_t *words_of, uint32_t highest)
{
    sqlite3_stmt *insert;
    sqlite3_prepare_v2(database, "insert into records(rowid, words) values (?, ?)", -1, &insert, NULL);
    for (uint32_t record = 1; record <= highest; record++) {
        char text[3 * WORDS + 1] = "";
        for (uint32_t i = 0; i < WORDS; i++) {
            if (words_of[record] >> i & 1) {
                snprintf(text + strlen(text), 4, "%c%d ", "cmr"[i / 10], (int)(i % 10));
            }
        }
        sqlite3_bind_int64(insert, 1, record);
        sqlite3_bind_text(insert, 2, text, -1, SQLITE_TRANSIENT);
        sqlite3_step(insert);
        sqlite3_reset(insert);
    }
    sqlite3_finalize(insert);
}

struct sqlite *sqlite_open(const struct corpus *corpus)
{
    if (corpus->highest > MOST_RECORDS) {
        return NULL;
    }
    uint32_t *words_of = must(calloc((size_t)corpus->highest + 1, sizeof *words_of));
    for (uint32_t i = 0; i < WORDS; i++) {
        each_stretch(corpus, i, mark, &(struct marking){words_of, 1u << i});
    }
    struct sqlite *sqlite = must(calloc(1, sizeof *sqlite));
    if (sqlite3_open(":memory:", &sqlite->database) != SQLITE_OK) {
        exit(2);
    }
    do_or_die(sqlite->database, "create virtual table records using fts5(words, content='', detail=none, columnsize=0); begin");
    insert_rows(sqlite->database, words_of, corpus->highest);
    do_or_die(sqlite->database, "commit; insert into records(records) values ('optimize')");
    free(words_of);
    return sqlite;
}

/* FTS5 has ranks of its own, so that every operator gets its brackets. */
static void write_question(const struct tree *tree, char *text)
{
    if (tree->operator == 0) {
        sprintf(text + strlen(text), "%c%d", "cmr"[tree->entry / 10], (int)(tree->entry % 10));
        return;
    }
    strcat(text, "(");
    write_question(tree->left, text);
    strcat(text, tree->operator == 'a' ? " AND " : tree->operator == 'o' ? " OR " : " NOT ");
    write_question(tree->right, text);
    strcat(text, ")");
}

void sqlite_prepare_question(struct sqlite *sqlite, const struct tree *question)
{
    char text[1024] = "";
    write_question(question, text);
    sqlite3_finalize(sqlite->statement);
    sqlite3_prepare_v2(sqlite->database, "select rowid from records where records match ?", -1, &sqlite->statement, NULL);
    sqlite3_bind_text(sqlite->statement, 1, text, -1, SQLITE_TRANSIENT);
}

uint64_t sqlite_ask(struct sqlite *sqlite)
{
    uint64_t records = 0;
    while (sqlite3_step(sqlite->statement) == SQLITE_ROW) {
        records++;
    }
    sqlite3_reset(sqlite->statement);
    return records;
}

void sqlite_close(struct sqlite *sqlite)
{
    sqlite3_finalize(sqlite->statement);
    sqlite3_close(sqlite->database);
    free(sqlite);
}

#else

struct sqlite *sqlite_open(const struct corpus *corpus)
{
    (void)corpus;
    return NULL;
}

void sqlite_prepare_question(struct sqlite *sqlite, const struct tree *question)
{
    (void)sqlite, (void)question;
}

uint64_t sqlite_ask(struct sqlite *sqlite)
{
    (void)sqlite;
    return 0;
}

void sqlite_close(struct sqlite *sqlite)
{
    (void)sqlite;
}

#endif
