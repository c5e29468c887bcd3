/*
 * The lines of a stream that `witness findings` reads, with numbers of spots for places, and one number for types that are one,
 * which is their name there; and what beside them is noted.
 */
#ifndef RECORD_VERIFIER_LINES_H
#define RECORD_VERIFIER_LINES_H

#include "notes.h"
#include "trace.h"

struct verifier_lines;

/* The notes are added to; what `making` points to, it reads each time. */
struct verifier_lines *verifier_lines_new(const struct making *making, struct notes *notes);
void verifier_lines_end(struct verifier_lines *lines);

/* The types that are noted of single locks are those of the making. */
void verifier_lines_note_types(struct verifier_lines *lines);
/* Locks and types have other names by now, and are the same ones. */
void verifier_lines_rename(struct verifier_lines *lines);

/*
 * Writes what these lines of the stream are for the verifier, which come after those before. False where it can't be written,
 * or one of them can't be one.
 */
bool verifier_lines_write(struct verifier_lines *lines, const char *at, const char *end, FILE *to);

#endif
