/*
 * Places and locks as they are told: a place by its line, or where that isn't known by its function (../code_words.h).
 */
#ifndef RECORD_PLACE_WORDS_H
#define RECORD_PLACE_WORDS_H

#include "code_words.h"

/* Texts of one's own: `@ FILE:LINE`, or `in FUNCTION+0xWITHIN (OBJECT)`; that without the first word; as a trace has it. */
char *place_told(const char *site);
char *place_name(const char *site);
char *place_in_trace(const char *site);

/* A lock that has a number in its type is `"TYPE" lock NUMBER`, any other one `"NAME"`: a text of one's own. */
char *lock_told(const char *name, const char *type);
/* The number that follows the type's name in the lock's; NULL where there is none. */
const char *lock_number(const char *name, const char *type);

#endif
