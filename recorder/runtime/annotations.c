/*
 * What a program tells of its own locks by witness.h. Such a lock is recorded as one of a class whose memory is never
 * read. Between `asked` and what ends it the thread is outside all of the recorder's calls, but nothing of it is
 * recorded: a seat asks for one lock at a time.
 */
#include "quick.h"

#include "witness.h"

static __thread struct request asked __attribute__((tls_model("initial-exec")));
static __thread bool asks __attribute__((tls_model("initial-exec")));

static enum class class_of(int how) { return how == WITNESS_MUTEX ? SPIN : TOLD_RWLOCK; }

static enum mode mode_of(int how)
{
    return how == WITNESS_READ ? SHARED : EXCLUSIVE;
}

/* The request is over, whoever says so. */
static void end_request(const volatile void *lock, bool got)
{
    asks = false;
    if (atomic_load(&asked.lock->address) != (uintptr_t)lock)
        got = false;
    asked.again = held_of(asked.thread, asked.lock);
    request_ends(&asked, got);
}

/* In place of a lock's address: handles are apart by a piece of memory, so that each has a bucket of its own. */
EXPORT const void *witness_recorder_handle(void)
{
    static _Atomic uintptr_t handles;
    return (const void *)(HANDLE | (atomic_fetch_add(&handles, 1) + 1) * LOCK_PIECE);
}

EXPORT void witness_recorder_made(const volatile void *lock, int how)
{
    start();
    lock_made((const void *)lock, class_of(how), CALLER);
}

EXPORT void witness_recorder_made_at(const volatile void *lock, int how, unsigned place, const char *type)
{
    start();
    lock_made_as((const void *)lock, class_of(how), site_or(place, CALLER), type);
}

static void ask(const volatile void *lock, int how, struct caller caller)
{
    if (asks)
        end_request(NULL, false);
    if (request_begins(&asked, (const void *)lock, class_of(how), mode_of(how), caller, ASKS)) {
        asks = true;
        if (UNLIKELY(asked.again != NULL) && asked.mode == SHARED)
            error_of_reread(&asked);
        self.state = STARTING;
    }
    site_callers_end();
}

EXPORT void witness_recorder_acquired(const volatile void *lock)
{
    if (asks)
        end_request(lock, true);
}

EXPORT void witness_recorder_gave_up(const volatile void *lock)
{
    if (asks)
        end_request(lock, false);
}

static void try(const volatile void *lock, int how, struct caller caller)
{
    struct request request;
    if (!asks && request_begins(&request, (const void *)lock, class_of(how), mode_of(how), caller, TRIES))
        request_ends(&request, true);
    site_callers_end();
}

/* The lock whose release this thread has told last, by its serial; 0 of none. */
static __thread uint32_t told_released __attribute__((tls_model("initial-exec")));

/* The real call follows, which may be one that is recorded: of the lock itself, at its address. */
static void release(const volatile void *address, struct caller caller)
{
    told_released = 0;
    if (asks)
        return;
    release_begins((const void *)address, caller);
    const struct lock *lock = self.state == OPEN ? lock_at((const void *)address) : NULL;
    told_released = lock ? lock->serial : 0;
}

bool release_was_told(const struct lock *lock)
{
    bool was_told = lock && lock->serial == told_released;
    told_released = 0;
    return was_told;
}

EXPORT void witness_recorder_destroyed(const volatile void *lock)
{
    start();
    lock_gone((const void *)lock);
}

/* The calls that tell what is done there, and those that tell where that is. */
EXPORT void witness_recorder_asked(const volatile void *lock, int how)
{
    ask(lock, how, CALLER);
}
EXPORT void witness_recorder_tried(const volatile void *lock, int how)
{
    try(lock, how, CALLER);
}
EXPORT void witness_recorder_released(const volatile void *lock)
{
    release(lock, CALLER);
}
EXPORT void witness_recorder_asked_at(const volatile void *lock, int how, unsigned place)
{
    ask(lock, how, site_or(place, CALLER));
}

EXPORT void witness_recorder_tried_at(const volatile void *lock, int how, unsigned place)
{
    try(lock, how, site_or(place, CALLER));
}

EXPORT void witness_recorder_released_at(const volatile void *lock, unsigned place)
{
    release(lock, site_or(place, CALLER));
}
