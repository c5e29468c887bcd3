/*
 * The libraries that a program opens while it runs. The one that it opens is noted by the name that it is asked for by, and
 * the thread looks at what is loaded at its next call (objects.c): by then the library is, whose constructors may be what
 * calls. The real functions go by who has called them, so they are come to by a jump, and nothing is done after them.
 *
 * A library that is opened with RTLD_DEEPBIND, or in a namespace of its own, has the C library's own calls. To leave that
 * bit out would give it other symbols than it was made for. So its locks aren't seen, and that is noted. The same is noted
 * of an object that has dlsym find such a call by a handle. It isn't given the recorder's own: it may wrap the call.
 */
#include "recorder.h"

#include <string.h>

/* Nothing is opened where no file of that name is, nor where an object of it is there already. */
static bool is_opened_past(const char *name)
{
    return !strchr(name, '/') || (access(name, F_OK) == 0 && !object_is_known(name));
}

static COLD void library_opens(const char *name, bool past, uintptr_t stack)
{
    if (!name || !goes_far_inside(stack))
        return;
    if (recorder_enters()) {
        if (past && is_opened_past(name))
            status_notes(STATUS_PAST, name);
        status_notes(WORD_OBJECT, name);
        recorder_leaves();
    }
    self.looks = true;
    self.state = UNREADY;
}

/* Whether that is the C library's own call, by which a lock may be asked for. */
static bool is_real_call(const void *found)
{
    const void *const calls[] = {real.pthread_mutex_lock, real.pthread_mutex_trylock, real.pthread_mutex_timedlock,
        real.pthread_mutex_clocklock, real.pthread_rwlock_rdlock, real.pthread_rwlock_wrlock, real.pthread_spin_lock};
    for (size_t i = 0; i < sizeof calls / sizeof *calls; i++)
        if (found && found == calls[i])
            return true;
    return false;
}

COLD void library_finds(const void *found, uintptr_t pc, uintptr_t stack)
{
    if (!is_real_call(found))
        return;
    GOES_INSIDE_OR(stack) return;
    ENTERS_OR return;
    uint32_t object = object_of(pc - 1, true);
    if (object)
        status_notes(STATUS_PAST, object_called(object) ? object_called(object) : object_path(object));
}

EXPORT void *dlopen(const char *name, int how)
{
    start();
    library_opens(name, how & RTLD_DEEPBIND, HERE);
    library_comes();
    return real.dlopen(name, how);
}

EXPORT void *dlmopen(Lmid_t space, const char *name, int how)
{
    start();
    library_opens(name, space != LM_ID_BASE || (how & RTLD_DEEPBIND), HERE);
    return real.dlmopen(space, name, how);
}
