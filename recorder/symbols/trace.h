/*
 * The trace of a stream (witness-trace(5)).
 */
#ifndef RECORD_TRACE_H
#define RECORD_TRACE_H

#include <stdbool.h>
#include <stdio.h>

#include "declarations.h"
#include "ignored_types.h"
#include "sites.h"
#include "types.h"

/* What lines are made by. */
struct making {
    const struct stream *stream;
    const struct declared *declared;
    const struct types *types;
    const struct ignored_types *ignored;
    struct sites *sites;
    size_t frames;  /* so many of a stack are wanted; with 1 none */
    bool is_learnt; /* its orders are: callers are noted also where no frames are wanted */
    bool has_pairs; /* pairs of locks are noted */
    bool progress;
};

/* False where the trace can't be written, or a line of the stream can't be one. */
bool trace_write(const struct making *making, FILE *trace);

#endif
