/*
 * Small things that end together: texts, and what is as short-lived as they; and lists of texts.
 */
#ifndef RECORD_TEXTS_H
#define RECORD_TEXTS_H

#include <stdbool.h>
#include <stddef.h>

struct texts;

struct texts *texts_new(void);
void texts_end(struct texts *texts); /* NULL is nothing */

/* Room for so many bytes, all zeroes, for anything that isn't aligned more than a pointer. */
void *texts_room(struct texts *texts, size_t bytes);
/* The bytes as a text. */
const char *texts_copy(struct texts *texts, const char *bytes, size_t length);
const char *texts_say(struct texts *texts, const char *format, ...) __attribute__((format(printf, 2, 3)));

/* The order of two texts in a list, for qsort and bsearch. */
int compare_texts(const void *one, const void *other);

/* Whether that text is in the list. */
bool has_text(const char *const *list, size_t count, const char *text);

#endif
