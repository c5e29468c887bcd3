/*
 * Which single locks were asked for while others were held, as lines for the verifier are written.
 */
#ifndef RECORD_LOCK_PAIRS_H
#define RECORD_LOCK_PAIRS_H

#include <stddef.h>
#include <stdint.h>

#include "map.h"

/* A lock that was asked for while the other was held, when that was first so: by numbers of locks and of spots. */
struct lock_pair {
    uint32_t held, asked;
    size_t held_at, asked_at;
};

/* A new struct is all zeroes. */
struct lock_pairs {
    struct lock_pair *pair;
    size_t count, room;
};

void lock_pairs_end(struct lock_pairs *pairs);

/* What seats hold meanwhile. A new struct is all zeroes. */
struct pair_holder;
struct pairs_reading {
    struct pair_holder *seat; /* by their numbers */
    size_t seats;
    struct map seen;
};

/* Calls of a seat, in their sequence; one for a lock that it holds again makes no pair. */
void pairs_ask(struct pairs_reading *reading, struct lock_pairs *pairs, uint32_t seat, uint32_t lock, size_t spot);
void pairs_give_up(struct pairs_reading *reading, uint32_t seat);
void pairs_get(struct pairs_reading *reading, uint32_t seat, uint32_t lock);
void pairs_try(struct pairs_reading *reading, uint32_t seat, uint32_t lock, size_t spot);
void pairs_release(struct pairs_reading *reading, uint32_t seat, uint32_t lock);
void pairs_reading_end(struct pairs_reading *reading);

#endif
