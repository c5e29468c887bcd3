/*
 * Tells on standard error, or in the log, what was recorded.
 */
#ifndef RECORD_SHOW_H
#define RECORD_SHOW_H

#include <stdbool.h>
#include <sys/types.h>

#include "settings.h"

/* How the program ended. */
struct ending {
    enum how { HOW_EXIT, HOW_SIGNAL, HOW_UNSTARTED, HOW_RUNNING } how;
    int number; /* the status, or the signal */
    pid_t process;
    bool left; /* processes that it has begun go on */
};

/* What is told of a run, while it goes on and when it has ended. */
struct run;

/* The recording of the run is in the folder `records`, below `work`. */
struct run *show_begins(const struct settings *settings, const char *work, const char *records);

/* The run is a steered one: nothing of it is told, and what is watched goes there. It ends by show_leaves. */
struct watched;
void run_is_watched(struct run *run, struct watched *watched);
const struct watched *watched_of(const struct run *run);
void show_leaves(struct run *run);

/* The program goes on as that process: tells what is new. It returns soon, and may be called again and again. */
void show_goes_on(struct run *run, pid_t process);

/* The program has ended. After this `record` has no children that it began while it looked. */
void show_stops(struct run *run);

/*
 * Replays what the program and its children have left, and tells of it what wasn't told. The answer is the status of
 * `record`. `work` is removed, unless something in it is to be kept: that is told.
 */
int show_ends(struct run *run, const struct ending *ending);

#endif
