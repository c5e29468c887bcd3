/*
 * `witness findings`, which goes on while the program does, and the resolving of the file that it is told of: neither has a
 * line twice, and a look costs what has come since the last one.
 */
#ifndef RECORD_LIVE_VERDICT_H
#define RECORD_LIVE_VERDICT_H

#include "resolve.h"
#include "verifier_process.h"

/* A new struct is all zeroes. */
struct live_verdict {
    struct resolving *resolving; /* NULL where nothing was read */
    struct verifier verifier;    /* it tells what it knows since the last look */
    bool has_ended;
    bool is_slow; /* grades took too long: they are asked for in the end alone */
    /* What it told before of the lines themselves, and not of a moment: reports and bad lines; orders. */
    struct text kept, orders;
};

/*
 * Has it read what the stream has besides what was read before. RESOLVED_ANEW where the stream is to be read from its
 * beginning: nothing is left of what was known.
 */
enum resolved going_reads(struct live_verdict *going, struct resolver *resolver, const char *witness,
    const struct stream *stream);

/*
 * What the verifier knows by now, with the reports and bad lines that it told before, and the grades of the reports that are new:
 * a text of one's own; NULL where it can't be asked. Orders are kept for its end where they are wanted.
 */
char *going_looks(struct live_verdict *going, struct grades_wanted wanted, bool wants_orders, size_t *length);

/* As going_looks, with all orders that were kept and all grades, and it ends: asked again it has told the same. */
char *going_ends(struct live_verdict *going, struct grades_wanted wanted, size_t *length);

/* Nothing more is wanted of it. */
void going_leaves(struct live_verdict *going);

#endif
