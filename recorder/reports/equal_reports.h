/*
 * Reports that several processes have: each is told once, and at the end it is said of how many.
 */
#ifndef RECORD_EQUAL_REPORTS_H
#define RECORD_EQUAL_REPORTS_H

#include "show_run.h"

/* Whether another process has told the report, so that it needn't be told again. It is noted by whom it was. */
bool equal_was_told(struct run *run, const struct report *report, long process);

/* What there is to say of such reports. */
void tell_equal(struct run *run);

void equal_end(struct run *run);

#endif
