/*
 * What wasn't recorded.
 */
#ifndef RECORD_MISSED_CALLS_H
#define RECORD_MISSED_CALLS_H

/*
 * The counts that aren't zero, of a line `.. missed NAME N NAME N ..`, each with what it means; a text of one's own, empty
 * where all are zero.
 */
char *missed_of(const char *line);

#endif
