/*
 * The files that a user has written: one way for all of them. A symbolic link stays one: what it leads to is written, and
 * made where it isn't there. What isn't a regular file, as a device or a FIFO, is written to: no file takes its place, and
 * none is made beside it.
 */
#ifndef RECORD_OUTPUT_FILES_H
#define RECORD_OUTPUT_FILES_H

#include <stdbool.h>
#include <stdio.h>

/* Refuses a name that is empty, and one that begins with `-`: an option or `--` stands where the file is missing. */
void written_name_check(const char *option, const char *name);

/* Refuses a file that can't be written. Nothing is left of the test. */
void written_check(const char *path);

/* Where the file stands, or would stand: the end of all symbolic links, a text of one's own. */
char *written_end(const char *path);

/* Whether no other file may take its place: it is there, and neither a folder nor a regular file that has a name. */
bool written_is_special(const char *path);

/* Opens it; below 0 where that can't be: errno says why. It is begun anew, or what is written comes behind what it has. */
enum written_from { WRITTEN_ANEW, WRITTEN_BEHIND };
int written_open(const char *path, enum written_from from);

/* As written_open, anew. NULL where it can't be opened. */
FILE *written_file(const char *path);

/*
 * A file that is written whole or not at all. Who reads a regular file meanwhile has the old one or the new one; what is
 * special is written to.
 */
struct written {
    FILE *to;
    char *path, *beside; /* `beside` takes the place of `path`; NULL where that one is written itself */
};
/* 0, or why it can't be. After a failure of the first one the second one isn't called. */
int written_begins(struct written *written, const char *path);
int written_ends(struct written *written);

#endif
