/*
 * The user's file of types, and pairs of them, to be left in ignored.
 */
#ifndef RECORD_IGNORE_FILE_H
#define RECORD_IGNORE_FILE_H

#include <stdbool.h>
#include <stddef.h>

#include "ignored_types.h"
#include "map.h"
#include "notes.h"
#include "types.h"

/* A line with two types: either order of them is all right. */
struct ignore_pair {
    char *first, *second;
    unsigned long line;
};

/* A line that is neither empty nor a comment, as it stands there. */
struct ignore_line {
    char *text;
    unsigned long number;
};

struct ignore_file {
    struct map single; /* of a type alone, its line */
    struct ignore_pair *pair;
    size_t pairs, pair_room;
    struct ignore_line *line;
    size_t lines, line_room;
    bool is_unread; /* the file can't be read */
};

/* Reads the file. The answer is the number of the first line that isn't "TYPE" or "TYPE" "TYPE", else 0. */
unsigned long ignore_file_read(struct ignore_file *ignore, const char *path);
void ignore_file_end(struct ignore_file *ignore);

/*
 * Notes what is to be ignored of these types, which lines name them, and what types are called besides: in place of what
 * was noted of that before. The aliases have the texts of the types.
 */
void ignore_file_note(struct notes *notes, const struct ignore_file *ignore, const struct types *types);

#endif
