/*
 * Colours for who reads at a terminal.
 */
#ifndef RECORD_COLOUR_H
#define RECORD_COLOUR_H

#include <stdbool.h>
#include <stddef.h>

/* Whether it is a word of --color: auto, always or never. */
bool colour_word(const char *word);

/* Whether standard error gets colours by that word; NULL is auto: at a terminal, unless NO_COLOR or TERM forbids it. */
bool colour_is_wanted(const char *word);

/* These lines with their headings in colour, as a text of one's own; NULL where there is no room. */
char *coloured(const char *text, size_t length, size_t *made);

#endif
