/*
 * The reports of an earlier run, of a file that --json has written, are confirmed.
 */
#ifndef RECORD_CONFIRM_FROM_H
#define RECORD_CONFIRM_FROM_H

struct run;

/*
 * Makes the steered runs for the reports of the file, and tells what comes of each. A file that can't be read, or is of
 * another build of what it names, is refused. The answer is the status of `record`: 0, or that of --error-exitcode where a
 * report is confirmed.
 */
int confirm_from(struct run *run);

#endif
