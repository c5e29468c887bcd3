/*
 * Places in JSON, and who was there.
 */
#ifndef RECORD_JSON_PLACE_H
#define RECORD_JSON_PLACE_H

#include "json_writer.h"
#include "notes.h"
#include "report.h"

/* The site alone, as a trace has it; null of none. */
void json_trace_site(struct objects *to, const char *name, const char *site);

/* The members of a place: its site, its file and its line, each null where it isn't known; its name, object and offset. */
void json_site(struct objects *to, const char *site);

/* These as an object; null of none. */
void json_place(struct objects *to, const char *name, const char *site);

/* A thread; null where its number isn't known. */
void json_thread(struct objects *to, const char *name, long number, const struct event *known);

/* Code in an object, and the calls by which a later run finds a place again. */
void json_code(struct objects *to, const struct code_place *code);
void json_calls(struct objects *to, const struct frames *frames);

/* Where a line of a report was, with the thread, the callers and the calls. */
void json_where(struct objects *to, const struct report_line *line);

#endif
