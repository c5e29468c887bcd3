/*
 * What a report is called, and what to do about it.
 */
#ifndef RECORD_DESCRIBE_H
#define RECORD_DESCRIBE_H

#include <stddef.h>

#include "alarms.h"
#include "report.h"

enum { KINDS = REPORT_OTHER + 1, ADVICES = 3 };

/* What each kind of report is called, for machines. */
extern const char *const kinds[KINDS];

/* In one line, as a text of one's own: `"journal" is held, "pool" is asked for`. */
char *describe(const struct report *report);

/*
 * What to do about it, by how much it is to be feared: ADVICES sentences, texts of one's own; NULL of what is no matter of
 * the program's.
 */
char *advice(const struct report *report, const struct alarm *alarm, size_t number);

/* The types that the report is of, each once, in their order. The answer is how many there are, at most `room`. */
size_t report_types(const struct report *report, const char **type, size_t room);

/* Whether the line is of the lock that was asked for: the last one of a report. */
int is_request(const struct report *report, const struct report_line *line);

#endif
