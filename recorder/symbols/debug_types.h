/*
 * Types, as debug information has them.
 */
#ifndef RECORD_DEBUG_TYPES_H
#define RECORD_DEBUG_TYPES_H

#include <stdbool.h>
#include <stdint.h>

#include "debug_info.h"

/* A type without its other names and qualities; the last of those names. */
struct plain_type {
    struct entry entry, other_name;
    bool has_other_name;
};
bool type_plain(struct entry type, struct plain_type *found);
bool type_is_class(const struct entry *type); /* or a structure, or a union */
uint64_t type_size(struct entry type);        /* in bytes; 0 where that isn't known */

#endif
