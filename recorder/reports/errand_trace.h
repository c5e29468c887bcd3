/*
 * A trace of version 2 made of the errands of threads: each one's seat does its errand, asks, gives up and lets all go, one
 * seat after the other. Of it `witness forecast` is asked how they come to hang. What is made here isn't proved: the answer
 * holds for the errands as the recorder's file tells them.
 *
 * What a thread got on its way stands as got by tries, of which no order is learnt: so each report is of the requests at the
 * errands' ends. Reports of several circles have locks and seats of their own.
 */
#ifndef RECORD_ERRAND_TRACE_H
#define RECORD_ERRAND_TRACE_H

#include <stdbool.h>
#include <stddef.h>
#include <stdint.h>
#include <stdio.h>

#include "map.h"
#include "single.h"

/* A trace has room for a few more seats and locks; a recorder writes no longer errands. */
enum { ERRAND_SEATS = 250, ERRAND_LOCKS = 65000, ERRAND_STEPS = 400 };

struct errand_seat {
    size_t circle;           /* a number of the caller's */
    const struct fact *fact; /* whose request it ends with */
    const struct single_telling *telling;
    const struct single_step *step;
    size_t steps;
    unsigned long first_line, check_line; /* from 1 on; each step has two, and the request's is the last one of these */
};

struct errand_lock {
    size_t circle;
    uint32_t serial;
    bool is_asked; /* at an errand's end: then it has a type of its own; all others have one together */
    const struct single_lock *known; /* by errand_trace_finds; NULL of one that no pair has */
};

struct errand_trace {
    struct errand_seat *seat; /* seat[N - 1] is that of number N, and lock[N - 1] so */
    size_t seats, seat_room;
    struct errand_lock *lock;
    size_t locks, lock_room;
    struct map numbers; /* of locks, by circle and serial number */
};

/*
 * Adds a seat for the telling, if its errand is whole and ends with what its pair has as held, and not with what it asks
 * for. False of another one, and where there is no room.
 */
bool errand_trace_adds(struct errand_trace *trace, const struct single *single, size_t circle, const struct fact *fact,
    const struct single_telling *telling);
/* Puts seats of one circle in the sequence of the file, and writes it all. */
void errand_trace_write(struct errand_trace *trace, FILE *to);
/* What the pairs know of its locks: best with a number. */
void errand_trace_finds(struct errand_trace *trace, const struct single *single);
void errand_trace_end(struct errand_trace *trace);

/* The number of the seat's lock. */
size_t errand_lock_number(const struct errand_trace *trace, const struct errand_seat *seat, uint32_t serial);

/* The get by which the seat has the lock before that step; NULL where it hasn't. */
const struct single_step *errand_has(const struct errand_seat *seat, uint32_t serial, size_t step);

#endif
