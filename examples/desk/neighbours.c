/* Looks a word up and shows the words around it, or around the place where it would stand. */
#include "desk.h"

#include <inttypes.h>
#include <stdio.h>
#include <string.h>

enum { AROUND = 3 };

/* One entry of the directory; 0 where the index has none of that number. */
static int show_entry(const struct mapped *index, uint32_t entry, char mark)
{
    struct naburain_part part = naburain_word(index->bytes, index->length, entry);
    if (part.refusal != 0) {
        return 0;
    }
    struct naburain_probed all = naburain_probe(index->bytes, index->length, entry, 1, NABURAIN_RECORD_MAX);
    printf("%c %5" PRIu32 "  %-24.*s %" PRIu64 " %s\n", mark, entry, (int)part.length, (const char *)index->bytes + part.start,
           all.overlapping, all.overlapping == 1 ? "stretch" : "stretches");
    return 1;
}

/* The word that is missing, where it would stand; bytes that are no text of a terminal as `?`. */
static void show_missing(const char *word)
{
    printf(">        (");
    for (; *word != 0; word++) {
        putchar((unsigned char)*word < 32 || *word == 127 ? '?' : *word);
    }
    printf(")\n");
}

enum ended show_neighbours(const struct mapped *index, const char *word)
{
    struct naburain_found found = naburain_lookup(index->bytes, index->length, (const uint8_t *)word, strlen(word));
    int there = found.refusal == 0;
    if (!there && found.refusal != NABURAIN_NO_WORD) {
        explain(found.refusal, found.value);
        return REFUSED;
    }
    uint32_t place = (uint32_t)(there ? found.entry : found.value), behind = place;
    for (uint32_t entry = place > AROUND ? place - AROUND : 0; entry < place; entry++) {
        show_entry(index, entry, ' ');
    }
    if (there) {
        show_entry(index, behind++, '>');
    } else {
        show_missing(word);
    }
    for (int shown = 0; shown < AROUND && show_entry(index, behind, ' '); shown++) {
        behind++;
    }
    if (!there) {
        explain(found.refusal, found.value);
    }
    return there ? ANSWERED : REFUSED;
}
