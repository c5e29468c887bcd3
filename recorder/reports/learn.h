/*
 * What a run learns: the orders of its processes, judged with those that a file has of other runs.
 */
#ifndef RECORD_LEARN_H
#define RECORD_LEARN_H

#include "run_orders.h"
#include "show_run.h"

/* Of one run. A new struct is all zeroes. */
struct learning {
    struct run_orders met;    /* by all processes */
    struct map nameless;      /* types without names that last, which are in orders */
    unsigned long long_names; /* orders whose names are longer than a line may be */
};

/* Whether a run is to be judged with the orders of others. */
bool learn_is_wanted(const struct settings *settings);

/* Refuses a file that can't be read, or that can't be written where that is wanted. */
void learn_check(const struct settings *settings);

/* Adds what the process asked for while it held something. Its trace was replayed. */
void learn_take(struct process *process);

/* When all processes were told of: judges, tells, and writes the file where that is wanted. */
void learn_tell(struct run *run);

void learn_end(struct run *run);

#endif
