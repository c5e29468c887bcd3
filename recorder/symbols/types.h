/*
 * The types of a trace: which of a stream's are one, and what they are called.
 */
#ifndef RECORD_TYPES_H
#define RECORD_TYPES_H

#include <stdbool.h>
#include <stddef.h>
#include <stdint.h>

#include "declarations.h"
#include "lasting_names.h"

/* A stream's type. Those that come from the same source are one: the first of them, whose names they have. */
struct named_type {
    uint32_t first;
    const char *name;     /* as it is told, of any length (type_names.h); no other type has it */
    const char *lock;     /* that of a lock in the type's own variable, without its object; NULL where it has none */
    bool lock_has_name;   /* such a lock has the type's name */
    const char *by_lines; /* by variables and source lines: at most 63 bytes; no other type has it */
    const char *source;   /* where it comes from: another type comes from elsewhere */
    struct lasting lasting;
    const char *alone; /* what it would be called if it weren't one with the first; NULL where that is a type's name */
    const char *functions; /* the functions of its places; NULL where its name is that of a variable */
    bool has_locks;        /* or is told of in pairs of single locks */
    bool is_array;         /* it is all locks of a variable that has many */
    bool is_member;        /* it is all locks of a member that no call has made */
};

struct types {
    struct named_type *type; /* by the stream's numbers, from 1 on */
    size_t count;            /* one more than the highest number */
    size_t different;
};

/*
 * All types that are declared by now, but for what they are told by. Of a type whose member is known what is declared of its
 * blocks is left out. Their texts are derived ones.
 */
void types_begin(struct types *types, struct declared *declared);
void types_end(struct types *types);

/* Whether types that have locks are one with others among the later ones than before, or have other names there. */
enum types_stay { TYPES_STAY, TYPES_RENAMED, TYPES_MERGED };
enum types_stay types_stay(const struct types *types, const struct types *later);

#endif
