/*
 * Which lock a source line asks for, or makes: the expression that names it, as it stands in the line's text.
 */
#ifndef RECORD_LOCK_EXPRESSION_H
#define RECORD_LOCK_EXPRESSION_H

#include <stdbool.h>
#include <stddef.h>

#include "source_text.h"

enum { EXPRESSIONS_MOST = 8 };

/* The expressions that may be that lock, each once, as texts of one's own. */
struct locked {
    char *expression[EXPRESSIONS_MOST];
    size_t count;
    bool is_bare; /* one of them is locked by a call, or given to the caller: no guard lets it go at the block's end */
};

/*
 * Reads the text of a line, and of those after it up to the end of its statement. An expression is a path: names, parted by
 * `.`, `->` and `::`, with `[..]` and `(..)` after them; `&`, casts and blanks are left out, as is `this->` at its head. Of
 * `path->lock()` it is `path->`: what is locked is the object that it leads to.
 */
void locked_read(struct locked *locked, const char *text);
void locked_end(struct locked *locked);

/* Adds the path, if it is one; or of what stands between brackets, parted by commas, all of them or the first that is one. */
void locked_add(struct locked *locked, struct span span);
void locked_add_arguments(struct locked *locked, struct span inside, bool all);

#endif
