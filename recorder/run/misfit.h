/*
 * Programs that the recorder can't go with.
 */
#ifndef RECORD_MISFIT_H
#define RECORD_MISFIT_H

#include <stdbool.h>

struct misfit {
    const char *why; /* as it is told; NULL where nothing is known that keeps the recorder out */
    bool unloadable; /* the dynamic linker would complain of the recorder */
};

/* Why the recorder can't go with the program, by the head of its file, or of what runs its script. */
struct misfit misfit_of(const char *program);

#endif
