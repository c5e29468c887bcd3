/*
 * `witness WORD`, run on a trace: a program of its own, over pipes.
 */
#ifndef RECORD_VERDICT_H
#define RECORD_VERDICT_H

#include <stdbool.h>
#include <stddef.h>
#include <stdio.h>
#include <sys/types.h>

struct verdict {
    FILE *told;      /* where its output goes, as it comes; NULL where nobody wants it */
    pid_t process;   /* 0 where it wasn't begun */
    int status;      /* where it wasn't begun: why, as a shell says it */
    int in, out;     /* -1 where closed */
    bool had_little; /* of what it told, when that was taken last */
    int patience; /* how many milliseconds it may take and tell nothing, before it is ended; -1 for ever, as it begins */
};

/* Begins it. The trace comes by `verdict_feed`. What it complains of is on standard error. */
void verdict_begin(struct verdict *verdict, const char *witness, const char *word, FILE *told);

/* The program and its words, with NULL after them. */
void verdict_ask(struct verdict *verdict, const char *const *words, FILE *told);

/* Where it has ended before, nothing is done. */
void verdict_feed(struct verdict *verdict, const char *bytes, size_t length);

/* Waits for what it tells next. False where it tells no more. */
bool verdict_hears(struct verdict *verdict);

/* No more of the trace comes. Its status, as a shell says it. */
int verdict_end(struct verdict *verdict);

/* Nothing more is wanted of it: what it still tells is passed over, and where it tells nothing for a second it is killed. */
void verdict_leaves(struct verdict *verdict);

/*
 * All that it tells of the text, a text of one's own; NULL where it takes longer for the next of that, or fails. It complains to
 * nobody.
 */
char *verdict_on_text(const char *witness, const char *word, const char *text, size_t length, int patience);

/* All of it, on the trace in a file; it complains to nobody. */
int verdict_on(const char *witness, const char *word, const char *trace, FILE *told);

/*
 * Runs a program to its end on a text, which a pipe has room for, and without its output; quiet, without its standard error too. Its
 * status, as a shell says it.
 */
int verdict_status(const char *const *words, const char *text, bool quiet);

#endif
