/*
 * What types of locks are called where no source line is known: by the functions that made or first took their locks.
 */
#ifndef RECORD_FUNCTION_NAMES_H
#define RECORD_FUNCTION_NAMES_H

#include <stdint.h>

#include "declarations.h"
#include "map.h"
#include "types.h"

struct function_names {
    const struct declared *declared;
    const struct types *types;
    struct map functions; /* how many types each function has a part in */
    struct map ways;      /* how many types have all functions alike */
};

/* All types, whose lasting names are known. */
void function_names_begin(struct function_names *names, const struct declared *declared, const struct types *types);
void function_names_end(struct function_names *names);

/*
 * The innermost function that no other such type has; else all of them, `made<grow`. NULL where another type has them all,
 * too, and where the type isn't named by functions. It stands with the texts of what was declared.
 */
const char *function_name(const struct function_names *names, uint32_t number);

#endif
