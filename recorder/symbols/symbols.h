/*
 * What is known of objects: the functions and source lines at their addresses, by debug information; names of the source,
 * of those that stand in objects. Each is looked up once.
 */
#ifndef RECORD_SYMBOLS_H
#define RECORD_SYMBOLS_H

#include <stdbool.h>
#include <stddef.h>
#include <stdint.h>

#include "debug_info.h"
#include "lock_names.h"
#include "object_file.h"
#include "source_lines.h"

/* A function at an address. All but the last one of them were inlined. */
struct inlined {
    const char *function; /* without what it takes; NULL of a place by name that has none */
    const char *site;     /* FILE:LINE */
    bool is_skipped;      /* it says nothing about a call */
};

/* What is known of an address. */
struct code {
    const char *function; /* NULL where there is none */
    size_t count;
    const struct inlined *frame; /* innermost first */
};

struct symbols;
struct binary;

/* The patterns are those of --skip, parted by colons. */
struct symbols *symbols_new(const char *patterns);
void symbols_end(struct symbols *symbols);

/* Of the file of that name; it ends with the symbols. */
struct binary *symbols_binary(struct symbols *symbols, const char *path);

/* Never NULL; nothing is known where the binary is NULL. */
const struct code *binary_code(struct binary *binary, uint64_t offset);
/* What the object's file says of itself, and when it was last changed; 0 where it isn't there. */
const struct object_file *binary_file(struct binary *binary);
/* Its debug information, NULL where there is none. */
struct debug_info *binary_debug(struct binary *binary);
/* The lines of sources, and what they name locks by: they end with the symbols. */
struct source_lines *symbols_lines(const struct symbols *symbols);
struct lock_names *symbols_lock_names(const struct symbols *symbols);
/* The name in the source, of one that stands in an object; else the name itself. It ends with the symbols. */
const char *symbols_name(struct symbols *symbols, const char *name);
/* Of a function, without what it takes. */
const char *symbols_function(struct symbols *symbols, const char *name);

#endif
