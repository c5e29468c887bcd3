/*
 * Errors in the use of locks that aren't orders.
 */
#ifndef RECORD_ERROR_WORDS_H
#define RECORD_ERROR_WORDS_H

#include "show_run.h"

/* What is said of the error before the lock's name, up to a colon; NULL where it is none. */
const char *error_text(const struct event *event);

/* Tells of those of the process, a line each, and counts them, unless they aren't wanted. */
void tell_errors(struct process *process);

#endif
