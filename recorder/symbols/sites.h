/*
 * Places of a stream as they stand in a trace.
 */
#ifndef RECORD_SITES_H
#define RECORD_SITES_H

#include <stdbool.h>
#include <stddef.h>
#include <stdint.h>

#include "declarations.h"
#include "texts.h"

struct sites {
    const struct declared *declared;
    const char *directory; /* left out at the head of files' names */
    struct texts *texts;   /* what is given stands there */
    const char **site;     /* of each place, NULL where it wasn't asked for yet */
    size_t room;
};

void sites_begin(struct sites *sites, const struct declared *declared, const char *directory, struct texts *texts);
void sites_end(struct sites *sites);

/* What the symbols know of the place, or what was told of it. */
const struct code *code_of(const struct declared *declared, const struct place *place);
/* The number of the first frame from `from` on that says something of a call; the frames' count where none does. */
size_t telling_frame(const struct code *code, size_t from);
/* Whether a place in a library says something of a call. */
bool place_says(const struct declared *declared, const struct place *place);
/* Of a place that stands for two the one that says something; any other one is its own. */
const struct place *chosen_place(const struct declared *declared, const struct place *place);
/* The function there as the source names it where the symbols know that; NULL where it isn't known. */
const char *function_of(const struct declared *declared, const struct place *place);
/* OBJECT+0xOFFSET(FUNCTION+0xWITHIN), a text of one's own (../code_words.h). */
char *unknown_place(const struct declared *declared, const struct place *place);

/* FILE:LINE of the place; where nothing is known of it, that and line 0: a text of one's own. */
char *source_of(const struct declared *declared, const struct place *place);

/* As source_of, of the place of that number, in the bytes that a word of a trace may have. */
const char *site_of(struct sites *sites, uint32_t place);
/* The text as a word of a trace. */
const char *word_of(struct sites *sites, const char *text);
/* A source line without the directory that everybody knows. */
const char *shown_line(const struct sites *sites, const char *line);

#endif
