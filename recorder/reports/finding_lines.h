/*
 * What `witness findings` tells (witness-findings(5)), read into reports and what is known.
 */
#ifndef RECORD_FINDING_LINES_H
#define RECORD_FINDING_LINES_H

#include "report.h"
#include "state.h"

/* How a line of that kind begins; whether this one does, up to a zero. */
#define FINDING(kind) "{\"finding\":\"" kind "\""
#define IS_FINDING(line, kind) (strncmp((line), FINDING(kind), sizeof FINDING(kind) - 1) == 0)

/*
 * Adds what the lines say. Their places are numbers of spots of the reports' notes, which have their locks, too. Lines
 * that are none of it say nothing.
 */
void finding_lines_read(struct reports *reports, struct state *state, const char *told, size_t length);

#endif
