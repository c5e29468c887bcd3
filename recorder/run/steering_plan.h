/*
 * The plan by which a report is steered (../plan.h): where threads are to pause so that they meet.
 */
#ifndef RECORD_STEERING_PLAN_H
#define RECORD_STEERING_PLAN_H

#include <stdbool.h>

#include "plan.h"
#include "show_run.h"

/* The orders of a report, as places, and which of them came first. */
struct planned {
    struct plan plan;
    const char *ask_site[PLAN_ORDERS]; /* as they are told */
    uint32_t first;                    /* the order that came first */
    unsigned long first_at, last_at;   /* in milliseconds, when it came, and when the last one did */
};

/* A place of a run before, by what it is found again. With no calls nothing is known of it. */
struct planned_place {
    const char *site; /* as it is told */
    struct call call[CALLS_MOST];
    size_t calls;
    struct code_place lock; /* the variable that is locked there; any lock where it has no object */
    unsigned long at;       /* in milliseconds, when a thread was there first */
};

void planned_begins(struct planned *planned);
/* An order: where its first lock is taken, and where its second one is asked for. Those that came first are added first. */
void planned_adds(struct planned *planned, const struct planned_place *hold, const struct planned_place *ask);

/* Finds in the process's trace where the steps of established orders took their first locks. Its file is there. */
void plan_finds_first_locks(struct process *process);

/* False where no place of the report can be found again. */
bool planned_of(struct planned *planned, const struct report *report, const struct notes *notes);

/* Makes the plan that of the run of that number, from 1 on: each goes further. What was counted is forgotten. */
void planned_for(struct planned *planned, unsigned run);

/* A plan without places, by which requests wait at random for up to so many milliseconds. */
struct plan plan_of_noise(uint32_t milliseconds);

/* Writes the plan to a new file, for programs of any user. False where there is no room. */
bool plan_write(const struct plan *plan, const char *path);

/* What was counted by then. */
void plan_read(struct plan *plan, const char *path);

#endif
