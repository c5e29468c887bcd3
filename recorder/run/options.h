/*
 * The words of the command line.
 */
#ifndef RECORD_OPTIONS_H
#define RECORD_OPTIONS_H

#include <stdbool.h>
#include <stddef.h>

#include "settings.h"

struct options {
    struct settings settings;
    const char *here;      /* the folder of the recorder's sources */
    const char *target;    /* --show; NULL where it isn't given */
    const char *trace;     /* a recorder's file whose trace is wanted, NULL for none: --trace, which goes */
    const char *clean;     /* a trace of which it is asked whether it is clean, NULL for none: --clean, which goes */
    char **program;        /* its name and its words */
    const char *on_report; /* --on-report: what libwitness does at a report; NULL where it isn't wanted */
    bool gdb;              /* --on-report gdb: it runs in gdb, which stands where a report's lock is asked for */
    bool counts_confirmed; /* --alarms confirmed */
    int depth;             /* so many callers of a lock's initialisation name its type: RECORDER_DEPTH */
    bool held;             /* stacks are recorded of all that is held: --verbose */
    bool semaphores, blocks;
};

/*
 * Reads the words, of which the last is followed by NULL. Those that can't be meant are refused, and nothing is run. For each
 * option of an earlier version standard error says what stands in its place; not for those among the first `untold` words,
 * which a tool of the repository or the command `orders` has put there.
 */
void options_read(struct options *options, const char *here, char **words, size_t untold);

#endif
