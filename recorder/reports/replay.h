/*
 * From the stream of a process to its reports.
 */
#ifndef RECORD_REPLAY_H
#define RECORD_REPLAY_H

#include "show_run.h"

/* Has the process's lines judged: fills what `struct process` has of that. */
void replay(struct process *process);

/* Writes the trace of the process to a file. False where it can't be written. */
bool trace_is_written(const struct process *process, const char *to);

#endif
