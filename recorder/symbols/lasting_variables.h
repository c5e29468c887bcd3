/*
 * What a lock that stands in a variable is called in each run: by the variable and the part of it, as debug information has
 * them.
 */
#ifndef RECORD_LASTING_VARIABLES_H
#define RECORD_LASTING_VARIABLES_H

#include <stdbool.h>
#include <stddef.h>
#include <stdint.h>

struct binary;
struct declared;
struct variable;

/* The object's file; NULL where the object has none. */
struct binary *binary_of_object(const struct declared *declared, uint32_t object);

/* So much of a symbol is its name: a compiler puts a number after a dot to a variable that is a function's own. */
size_t length_without_number(const char *symbol);

/* An array of more elements is one type, or one for each of its members. */
enum { FEW_ELEMENTS = 16 };

/*
 * `server.accept`, `forks[1]`; where any element is meant, or an array has more than `few` of them, `table[]`. A text of one's
 * own; NULL where debug information doesn't tell it.
 */
char *variable_part(const struct declared *declared, const struct variable *variable, uint64_t few, bool is_any);

/* The single lock that stands there, without its object: that part, else the variable with the offset in it. */
const char *variable_lock_name(const struct declared *declared, const struct variable *variable);

#endif
