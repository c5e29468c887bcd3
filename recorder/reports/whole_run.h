/*
 * What is told of the whole run, when its processes were told of.
 */
#ifndef RECORD_WHOLE_RUN_H
#define RECORD_WHOLE_RUN_H

#include "show_run.h"

/* What processes have left that could make no file of their own, and which programs have left nothing. */
void tell_status(struct run *run);

/* The objects in which stacks end. */
void tell_blind(struct run *run);

/* That nothing reads debug information. */
void tell_lines_unknown(struct run *run);

/* Lines of the ignore file that named no type of any trace. */
void tell_unmatched(struct run *run);

/* The last line, and the status of `record`. */
int tell_end(struct run *run);

#endif
