/*
 * What the text of a source says of a call, and of a function.
 */
#ifndef RECORD_CALL_WORDS_H
#define RECORD_CALL_WORDS_H

#include <stdbool.h>

/*
 * What tells a call of the function in that text from others: the path that its answer is put in, else the first path that
 * it is given. A text of one's own; NULL where there is neither.
 */
char *call_word(const char *text, const char *function);

/* Whether the text's first line calls the function. */
bool has_call(const char *text, const char *function);

/* Whether the function that begins with the text lets a lock go again, as far as its words say. */
bool lets_go(const char *text);

#endif
