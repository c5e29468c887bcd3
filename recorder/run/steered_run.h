/*
 * A steered run: the program runs again, its threads pause by a plan, and whether they come to hang is watched.
 */
#ifndef RECORD_STEERED_RUN_H
#define RECORD_STEERED_RUN_H

#include <stdbool.h>

#include "hang.h"
#include "plan.h"

struct options;
struct process;
struct run;

/* How the program is begun again. */
struct again {
    const struct options *options;
    const char *preload; /* what is loaded before its libraries */
    char **words;        /* the program's */
};

enum steered_end { STEERED_ENDED, STEERED_HUNG, STEERED_TOO_LONG, STEERED_FAILED };

struct steered {
    enum steered_end how;
    struct hang hang; /* of one that hung */
};

/* What is watched while it runs: of a run that isn't steered there is none. */
struct watched {
    struct hang hang;
    bool has_hung;
};

/*
 * Runs it for so many seconds at most, and ends it with all that it has begun. `folder` is made for it and removed. What was
 * counted stands in the plan afterwards.
 */
struct steered steered_run(const struct again *again, const char *folder, struct plan *plan, double seconds);

/* A circle has stood for a moment, that of the process's last reports. Whether no more is to be known. */
bool steered_hangs(struct process *process, long long since, long long now);

#endif
