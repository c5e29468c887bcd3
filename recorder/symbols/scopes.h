/*
 * The function that a line of the source is in, by debug information, and the variables that are known there.
 */
#ifndef RECORD_SCOPES_H
#define RECORD_SCOPES_H

#include <stdbool.h>
#include <stddef.h>
#include <stdint.h>

#include "debug_info.h"

/*
 * Where an expression stands: the code at an address, and its source. Several functions may have the address, one inlined in
 * the other: the line is in the last of them that is declared above it, in its file; or in a lambda, which isn't declared.
 */
struct spot_of_code {
    uint64_t address;
    const char *file; /* with its folders */
    long line;
    const char *function; /* as the frames of the address tell it (debug_frames.h); NULL where they don't */
};

/* Where names are looked for: the function, and the blocks in it that have the address, from it inwards. */
struct context {
    struct debug_info *info;
    const struct spot_of_code *spot;
    struct entry unit;
    struct entry around[SCOPES_MOST];
    size_t depth;
};

/* False where the address has no function that the line is in. */
bool context_begin(struct context *context, struct debug_info *info, const struct spot_of_code *spot);

/* A variable of the function, or of what is around all functions. False where there is none. */
bool find_local(const struct context *context, const char *name, struct entry *found);
bool find_global(const struct entry *around, const char *name, struct entry *found);
bool is_named(const struct entry *entry, const char *name);

/* The function's name there: a text of one's own, NULL where it isn't known; and on which line it is declared. */
char *function_at(struct debug_info *info, const struct spot_of_code *spot, long *line);
/* Whether a function's short name, as it is told, is for one of that whole name. */
bool is_name_of_function(const char *told, const char *whole);

#endif
