/*
 * What isn't told of the types of a process: what the user wants to be left in ignored, and what is right in a library.
 */
#ifndef RECORD_IGNORED_TYPES_H
#define RECORD_IGNORED_TYPES_H

#include <stddef.h>

#include "map.h"
#include "texts.h"

/* Why a report is ignored. */
enum ignored_cause { NOT_IGNORED, IGNORED_BY_USER, IGNORED_AS_RIGHT };

/* Two types that may be taken in either order. */
struct ignored_names {
    const char *first, *second;
    enum ignored_cause cause;
};

/* A new struct is all zeroes. */
struct ignored_types {
    struct map names;           /* types of which a thread may take several locks: the cause of each */
    struct map known;           /* pairs by their names: numbers in the list, from 1 on */
    struct ignored_names *pair; /* each once */
    size_t pairs, pair_room;
    struct texts *texts;
};

void ignored_types_end(struct ignored_types *ignored);

/* Unless these are known: a type of which several may be taken; types, of different names, for either order. */
void ignored_add_type(struct ignored_types *ignored, const char *name, enum ignored_cause cause);
void ignored_add_pair(struct ignored_types *ignored, const char *first, const char *second, enum ignored_cause cause);

/* Why nothing is told of a request for a lock of one type while one of the other is held. */
enum ignored_cause why_ignored(const struct ignored_types *ignored, const char *held, const char *asked);

#endif
