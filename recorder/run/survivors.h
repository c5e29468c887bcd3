/*
 * What goes on when the program has ended.
 */
#ifndef RECORD_SURVIVORS_H
#define RECORD_SURVIVORS_H

#include "show_run.h"

/* Finds which processes of the recording go on, and whether anything does: before this process has children. */
void find_going(struct run *run);

/* Says it: the recording is kept for them. */
void tell_going(struct run *run);

/* The name that the thread has now, a text of one's own; NULL where the process has no such thread. */
char *task_name(long process, long thread);

/* The names of the objects that were loaded in the run, each once: they and the list are the caller's. */
char **objects_of_run(const struct run *run, size_t *count);

#endif
