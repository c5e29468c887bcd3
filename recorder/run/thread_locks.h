/*
 * What the threads of a program that goes on hold and ask for.
 */
#ifndef RECORD_THREAD_LOCKS_H
#define RECORD_THREAD_LOCKS_H

#include "show_run.h"

/* Tells it; of a program that has ended nothing. */
void tell_held(struct process *process);

#endif
