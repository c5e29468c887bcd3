/*
 * From a recorder's file to lines with names, and source lines.
 */
#ifndef RECORD_RESOLVE_H
#define RECORD_RESOLVE_H

#include <stdbool.h>
#include <stddef.h>
#include <stdio.h>

#include "notes.h"
#include "settings.h"
#include "stream_file.h"

/* What is known of objects (symbols.h), the ignore file, and the lists of right orders: for all files of a run. */
struct resolver;

struct resolver *resolver_new(const struct settings *settings);
void resolver_end(struct resolver *resolver);

/* The ignore file, as it was read when this began. */
struct ignore_file;
const struct ignore_file *resolver_ignore(const struct resolver *resolver);

/* The type of the stream was told of by its name, which it keeps. */
void resolver_keeps(struct resolver *resolver, const struct stream *stream, const struct alias *alias);

/* A file that is resolved as it grows. */
struct resolving;

/* With the stream's path; it keeps nothing else of the stream. */
struct resolving *resolving_new(struct resolver *resolver, const struct stream *stream);
void resolving_end(struct resolving *resolving);

/* So many bytes of the file it has read. */
size_t resolving_read(const struct resolving *resolving);

/*
 * Reads on where it stopped: the stream has what follows. Writes the lines that the verifier reads of that (verifier_lines.h).
 * RESOLVED_BADLY: the lines can't be written, the ignore file can't be read, or the stream has numbers that no recorder
 * writes; what could be made is there. RESOLVED_ANEW: types that were written before have come to be one, and nothing was
 * written: the file is to be read from its beginning, by another one.
 */
enum resolved { RESOLVED, RESOLVED_BADLY, RESOLVED_ANEW };
enum resolved resolving_goes_on(struct resolving *resolving, const struct stream *stream, FILE *lines);

/* The notes of all that was read. They stay its own. */
const struct notes *resolving_notes(const struct resolving *resolving);

/* It ends, and the notes are the caller's to end. */
struct notes resolving_leaves_notes(struct resolving *resolving);

/* Writes the stream's trace. False where that is RESOLVED_BADLY. */
bool resolve_trace(struct resolver *resolver, const struct stream *stream, FILE *trace);

#endif
