/*
 * What is told of one process.
 */
#ifndef RECORD_TELL_PROCESS_H
#define RECORD_TELL_PROCESS_H

#include "show_run.h"

void tell_process(struct run *run, const struct recording *recording);

/* Tells the verifier's reports of a process that goes on, but for those that were told. */
void tell_new_reports(struct process *process);

/* Frees what a process has, but for its stream. */
void process_end(struct process *process);

#endif
