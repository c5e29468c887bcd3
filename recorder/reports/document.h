/*
 * What `witness` makes of a JSON report: a page, a log of SARIF, orders for dot; and what dot makes of these.
 */
#ifndef RECORD_DOCUMENT_H
#define RECORD_DOCUMENT_H

#include <stdbool.h>
#include <stddef.h>
#include <stdio.h>

#include "run_reports.h"

/* Writes what `PROGRAM WORD` makes of the bytes. The answer is its status, as a shell says it: 0 where all was made. */
int document_write(FILE *to, const char *program, const char *word, const char *bytes, size_t length);

/* The same as a text of one's own; NULL where not all was made, or the bytes are NULL. */
char *document_text(const char *program, const char *word, const char *bytes, size_t length);

/* The JSON report as a text of one's own; NULL where there is no memory for it. */
char *document_report(const struct run_reports *gathered, size_t *length);

/* Whether the program knows that word. */
bool document_is_known(const char *witness, const char *form);

#endif
