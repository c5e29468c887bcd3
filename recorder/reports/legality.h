/*
 * Whether a trace is one of locks that were free when they were taken: else what is told of it may be wrong.
 */
#ifndef RECORD_LEGALITY_H
#define RECORD_LEGALITY_H

#include "show_run.h"

/* Tells it, where that was asked for. */
void tell_legality(struct process *process);

#endif
