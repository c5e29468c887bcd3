/*
 * Reports as a text: the verifier's own lines, below them the callers of each place, and the line that would have it ignored.
 */
#ifndef RECORD_REPORT_TEXT_H
#define RECORD_REPORT_TEXT_H

#include <stdio.h>

#include "report.h"

void report_write(FILE *to, const struct report *report, bool with_callers, bool with_ignore_line);

#endif
