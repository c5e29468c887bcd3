/*
 * `-v`: each program that `record` begins is told on standard error, with its words.
 */
#ifndef RECORD_CHILD_WORDS_H
#define RECORD_CHILD_WORDS_H

/* From now on they are told. */
void child_words_wanted(void);

/* What is about to be begun, with NULL after its words, and what is loaded before its libraries; NULL for nothing. */
void child_words(const char *preload, const char *const *words);

#endif
