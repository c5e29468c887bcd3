/*
 * What a type of locks is called in each run, also after lines of its source have moved: by functions, variables and
 * members, and its object by the name by which others ask for it, else by the one that was executed.
 */
#ifndef RECORD_LASTING_NAMES_H
#define RECORD_LASTING_NAMES_H

#include <stdbool.h>
#include <stdint.h>

struct declared;
struct type;
struct types;

struct lasting {
    const char *name;     /* of any length; bytes from ' ' to '~' but no double quote */
    const char *bare;     /* the name without its object */
    bool lasts;           /* else it holds under that build of its objects alone */
    const char *build_id; /* where it doesn't last: theirs, parted by `+`, with `-` for one that isn't known. Else NULL */
};

/* The functions that made the type's locks, as they stand in names: it ends with `declared`. */
const char *lasting_functions(const struct declared *declared, const struct type *type);

/* That of the stream's type of that number. Its texts end with those of `declared`. */
struct lasting lasting_of(const struct declared *declared, const struct types *types, uint32_t number);

#endif
