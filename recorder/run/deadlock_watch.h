/*
 * A deadlock that happens is told while the program hangs: threads that have waited for one another for a second.
 */
#ifndef RECORD_DEADLOCK_WATCH_H
#define RECORD_DEADLOCK_WATCH_H

#include "show_run.h"

/* What was seen of a process. A new struct is all zeroes. */
struct deadlock {
    char *circle;       /* as it would be told; NULL where there is none */
    long long since;    /* when it was seen first, in microseconds */
    long long patience; /* for so long it has to stand */
    bool is_told;
    bool is_over; /* what --on-deadlock says was done, or nothing is to be */
};

/* Whether there is a circle to be looked at again, though nothing was written meanwhile. */
bool deadlock_is_due(const struct deadlock *deadlock, long long now);

/*
 * Looks at the process, whose reports were told. A circle that is there a second after it was seen first is told, and what
 * --on-deadlock says is done to the process.
 */
void deadlock_look(struct process *process, struct deadlock *deadlock, long long now);

void deadlock_end(struct deadlock *deadlock);

/* Whether the word of --on-deadlock is one: tell, kill, or exit=N. */
bool deadlock_word(const char *word, int *status);

#endif
