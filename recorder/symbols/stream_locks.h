/*
 * The locks that a stream makes: what they are called.
 */
#ifndef RECORD_STREAM_LOCKS_H
#define RECORD_STREAM_LOCKS_H

#include "declarations.h"
#include "types.h"

struct made_lock {
    uint32_t type;            /* its number in the stream, the first of those that are one; 0 where it isn't known */
    bool is_types_first;      /* that was read */
    uint32_t number;          /* of the lock among those of its type, from 1 on */
    struct variable variable; /* that it is in; its object is 0 where it is in none */
};

/* How many locks of each type were read, by the numbers of the types in the stream. A new struct is all zeroes. */
struct lock_counts {
    struct lock_count {
        bool is_met;      /* it has a lock */
        uint32_t several; /* of a first one: so many types with locks are one with it */
        uint32_t highest; /* and the highest number of its locks */
    } * of;
    size_t types;
};

/*
 * Of a line `init`. The locks of types that are one are counted, so each line is read once. False where a number in it can't
 * be one.
 */
bool made_lock_read(struct made_lock *made, const struct line *line, const struct declared *declared,
    const struct types *types, struct lock_counts *counts);

/* What the lock's type is called, and the lock: by what is known of types by now. */
const char *made_type_name(const struct made_lock *made, const struct types *types);
const char *made_lock_name(const struct made_lock *made, const struct declared *declared, const struct types *types);

void lock_counts_end(struct lock_counts *counts);

#endif
