/*
 * The callers that name a type of locks, innermost first: places with what was inlined there, as the source has them.
 */
#ifndef RECORD_STEPS_H
#define RECORD_STEPS_H

#include <stddef.h>

#include "declarations.h"

struct step {
    const struct place *place; /* a call, or a place by name */
    const char *identity;      /* where it comes from: a step that comes from elsewhere has another one */
    const char *name; /* FILE:LINE without folders, and the column where others stand on that line; where no line is known FUNCTION+OFFSET */
    const char *function; /* NULL where it has no name */
    const char *site;     /* FILE:LINE; NULL where no line is known */
    size_t frame;         /* which of the functions at the place it is: the innermost one is 0 */
};

struct steps {
    struct step *step;
    size_t count, room;
};

/* Those of the type: at most as many as any type of the stream has places, whether they were inlined or not. */
void steps_begin(struct steps *steps, const struct declared *declared, const struct type *type);
void steps_end(struct steps *steps);

#endif
