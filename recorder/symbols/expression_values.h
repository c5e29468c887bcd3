/*
 * What an expression of the source is, by the types that debug information has: objects, their members, and what pointers and
 * references lead to.
 */
#ifndef RECORD_EXPRESSION_VALUES_H
#define RECORD_EXPRESSION_VALUES_H

#include <stdbool.h>

#include "debug_types.h"

enum { PATH_MOST = 512 };

/* What an expression is, as far as it was read. */
struct value {
    struct entry type;
    struct entry variable;   /* the one at its head */
    bool is_fixed;           /* which is always at the same address */
    bool is_element;         /* an index, or a call, was on the way */
    unsigned hops;           /* pointers and references on the way */
    struct plain_type owner; /* the class that declares the first member of the path */
    char path[PATH_MOST];    /* members, from the object on that the last hop leads to */
};

/* Each goes a step further; false where there is none. What a pointer's operator is called is said for objects like one. */
bool dereference(struct value *value, const char *operator);
bool select_member(struct value *value, const char *name);  /* `.name` */
bool select_element(struct value *value, const char *told); /* `[..]`, as it is told: `[]`, but for constants */
bool call_member(struct value *value, const char *name);    /* `.name(..)` */

bool is_pointer(const struct entry *type); /* or a reference */

#endif
