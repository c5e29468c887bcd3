/*
 * Columns of calls in their lines: what tells two calls on one line from each other. Debug information has them.
 */
#ifndef RECORD_COLUMNS_H
#define RECORD_COLUMNS_H

#include <stdbool.h>
#include <stddef.h>

struct columns;
struct declared;
struct place;
struct step;

/* What is known of a stream's places. */
struct columns *columns_new(void);
void columns_end(struct columns *columns);

/* That of the place's function of that number, of which the line is known: FILE:LINE. 0 where the column isn't known. */
unsigned column_at(const struct declared *declared, const struct place *place, size_t frame, const char *site);

/*
 * Looks at the calls that have come since, where a type has steps (steps.h). Whether columns part calls of a line that they
 * didn't part before: then steps come to be others.
 */
bool columns_go_on(struct declared *declared);

/* As column_at where other calls that were looked at stand at other columns of that line; else 0. */
unsigned column_that_parts(const struct declared *declared, const struct place *place, size_t frame, const char *site);

/* Gives types their labels: without columns, but where two differ in these alone. */
void columns_of_labels(struct declared *declared);

#endif
