/*
 * What types of locks, and single locks after them, are called in all that is told: by the names that last.
 */
#ifndef RECORD_TYPE_NAMES_H
#define RECORD_TYPE_NAMES_H

#include <stdint.h>

#include "map.h"
#include "types.h"

struct variable;

/*
 * Names that were told while a process went on: by its stream and the type's source, numbers in the list from 1 on. What has
 * come to be known after that doesn't change them.
 */
struct told_names {
    struct map by_source;
    const char **name;
    size_t names, room;
    struct texts *texts;
};

struct told_names *told_names_new(void);
void told_names_end(struct told_names *told);
void told_names_add(struct told_names *told, const char *stream, const char *source, const char *name);

/* Gives each of the stream's types its name. */
void type_names_give(struct types *types, const struct declared *declared, const struct told_names *told,
    const char *stream);

/* The name of a lock of that type that stands in the variable; or of the one of that number among the type's, from 1 on. */
const char *variable_lock_in(const struct declared *declared, const struct named_type *type,
    const struct variable *variable);
const char *numbered_lock_in(const struct declared *declared, const struct named_type *type, uint32_t number);

/* As a trace may have the name: a longer one is cut, and has a number after `~` that is made of all of it. */
enum { TRACE_NAME_MOST = 63 };
void trace_name(char cut[TRACE_NAME_MOST + 1], const char *name);

#endif
