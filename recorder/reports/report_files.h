/*
 * The reports of a run while it is told of, and the files that they are written to in the end.
 */
#ifndef RECORD_REPORT_FILES_H
#define RECORD_REPORT_FILES_H

#include "show_run.h"

/* Whether a file of them is wanted. */
bool report_files_are_wanted(const struct settings *settings);

/* What is said from here on is heard. */
void report_files_begin(struct run *run);

/*
 * Takes over what is known of the process: when it was told of, and its trace can still be read. Its notes and its reports
 * are the run's from here on.
 */
void report_files_take(struct process *process);

/* All was told: writes the files. Which of them can't be written is said. */
void report_files_write(struct run *run);

#endif
