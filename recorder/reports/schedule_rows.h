/*
 * The rows of a schedule, from what the seats of a trace of errands do in it (errand_trace.h).
 */
#ifndef RECORD_SCHEDULE_ROWS_H
#define RECORD_SCHEDULE_ROWS_H

#include "errand_trace.h"
#include "notes.h"
#include "schedule.h"

/* A step of a seat's errand. Both are counted from 0 on. */
struct errand_act {
    size_t seat, step;
};

/* The schedule's rows: the acts of those seats that wait in the end, in this sequence; then each one waits. */
void schedule_rows(struct schedule *schedule, const struct errand_trace *trace, const struct notes *notes,
    const struct errand_act *act, size_t acts, const bool *waits);

/* The step as a row; that after the last one is the request. */
struct schedule_row schedule_row_of(const struct errand_trace *trace, const struct notes *notes, size_t seat,
    size_t step);

/* The name of the lock of that number in the trace; that of its type where it has none. */
const char *schedule_lock(const struct errand_trace *trace, const struct notes *notes, size_t number);

#endif
