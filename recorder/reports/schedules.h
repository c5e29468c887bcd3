/*
 * The schedules of a process's reports. They are asked of `witness forecast`: a trace is made of the errands of each
 * report's circle of facts, and what it answers is told in threads, locks and places. Nothing is decided here.
 */
#ifndef RECORD_SCHEDULES_H
#define RECORD_SCHEDULES_H

#include "report.h"

/* A report that was graded, with the facts of the circle that its grade speaks of. */
struct circle {
    struct report *report;
    const struct single_telling **used; /* of each fact that a schedule has, the line by which it does; else NULL */
};

/*
 * Gives each report its schedule, by few runs of that program; NULL where it doesn't stand built. `witness findings` says
 * whether the threads of one were there at one time. BRIEFLY: each run has two seconds, since others wait; else half a minute.
 */
void schedules_find(const struct notes *notes, const struct circle *circle, size_t count, const char *forecaster,
    bool briefly);

#endif
