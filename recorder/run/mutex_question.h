/*
 * What is asked of processes that go on: which mutexes are held, and by whom. They look at a byte in the first line of
 * their streams (recorder/runtime/mutex_answer.c), and take it back when they have answered.
 */
#ifndef RECORD_MUTEX_QUESTION_H
#define RECORD_MUTEX_QUESTION_H

#include <stddef.h>

/* Asks the processes of these files that go on, and waits up to a second until all have answered. */
void ask(char *const *files, size_t count);

/* Takes back what nobody has answered. */
void ask_no_more(char *const *files, size_t count);

#endif
