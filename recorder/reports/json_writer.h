/*
 * Writes JSON: objects and lists, a value a line, so that two files can be compared by lines.
 */
#ifndef RECORD_JSON_WRITER_H
#define RECORD_JSON_WRITER_H

#include <stdbool.h>
#include <stdio.h>

struct objects {
    FILE *to;
    unsigned depth;
    bool goes_on; /* something stands before in the innermost object or list */
};

/* Within an object each value has a name; within a list, and at first, the name is NULL. A bracket is { or [. */
void object_open(struct objects *objects, const char *name, char bracket);
void object_close(struct objects *objects, char bracket);                      /* by the bracket that opened it */
void object_text(struct objects *objects, const char *name, const char *text); /* null where that is NULL */
void object_number(struct objects *objects, const char *name, long long number);
void object_known(struct objects *objects, const char *name, long long number); /* null where that is 0 */
void object_seconds(struct objects *objects, const char *name, double seconds); /* to the thousandth */
void object_truth(struct objects *objects, const char *name, bool truth);

/* As object_text, where there is a text; else nothing is written. */
void object_maybe(struct objects *objects, const char *name, const char *text);

#endif
