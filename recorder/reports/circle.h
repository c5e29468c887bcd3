/*
 * Where threads wait for one another, or for themselves, at the end of a trace.
 */
#ifndef RECORD_CIRCLE_H
#define RECORD_CIRCLE_H

#include "show_run.h"

/* Adds such circles to the reports of the process. */
void add_circles(struct process *process);

#endif
