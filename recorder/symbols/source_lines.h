/*
 * Statements of source files, by the lines on which they begin. Each is read once.
 */
#ifndef RECORD_SOURCE_LINES_H
#define RECORD_SOURCE_LINES_H

#include <time.h>

struct source_lines;

/* A line of a source, with those after it up to the end of its statement. */
struct statement {
    const char *text; /* NULL where the file isn't there, or hasn't so many lines */
    time_t changed;   /* when the file was */
};

struct source_lines *source_lines_new(void);
void source_lines_end(struct source_lines *lines);

/* That of FILE:LINE. Never NULL; it ends with the lines. */
const struct statement *source_lines_at(struct source_lines *lines, const char *site);

/* The source from that line on; NULL where it isn't there. */
const char *source_lines_from(struct source_lines *lines, const char *site);

#endif
