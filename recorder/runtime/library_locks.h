/*
 * Functions of libraries that have locks of their own, and may be absent. A program may declare such a function weak, or
 * look for it by its name, to see whether the library is there. So the recorder has none of these names: it puts its own
 * functions in their place in those objects that call them (rebind.c), once the library is there.
 */
#ifndef OTHERS_H
#define OTHERS_H

#include "recorder.h"

struct other {
    const char *name;
    void *own;
    _Atomic(void *) real; /* NULL until the library was there; the own one isn't called before */
};

struct other_library {
    const char *const *names; /* any of which its file's may begin with, before a dot or a dash; NULL after the last */
    struct other *functions;
    uint32_t count;
};

extern struct other_library others[];
extern const uint32_t others_count;

#endif
