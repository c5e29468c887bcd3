/*
 * Semaphores that are locks, where `record --semaphores` asks for them: one that sem_init makes with 1 is recorded from then
 * on. It counts as a lock as long as each thread that posts it is the one that has waited for it, and no thread waits for
 * what it has. Once that isn't so it is left alone, as all others are; its record stays, since others may wait for it.
 */
#include "ways.h"

bool semaphores_are_locks;

/* The semaphore's record, NULL where it isn't a lock. */
static struct lock *lock_of(const sem_t *semaphore)
{
    struct lock *lock = semaphores_are_locks ? lock_at(semaphore) : NULL;
    if (!lock || (lock->type->class != SEMAPHORE && lock->type->class != SHARED_SEMAPHORE))
        return NULL;
    return atomic_load(&lock->left_alone) ? NULL : lock;
}

/* Who holds it finds out at its next call. */
static void leave_alone(struct lock *lock)
{
    atomic_store(&lock->left_alone, true);
    lock_given_up(lock);
}

/* Semaphores are waited for, and none is recorded: that is noted once. */
static COLD void note_unseen(uintptr_t stack)
{
    static _Atomic bool noted;
    if (atomic_load_explicit(&noted, memory_order_relaxed))
        return;
    GOES_INSIDE_OR(stack) return;
    atomic_store(&noted, true);
    status_notes(STATUS_SEMAPHORES, "");
}

static bool begins(struct request *request, sem_t *semaphore, enum asking asking, struct caller caller)
{
    start();
    if (!semaphores_are_locks && asking != TRIES && !is_asleep())
        note_unseen(caller.stack);
    struct lock *lock = lock_of(semaphore);
    if (lock && asking != TRIES && held_of(&self, lock)) {
        leave_alone(lock);
        return false;
    }
    return lock && request_begins(request, semaphore, SEMAPHORE, EXCLUSIVE, caller, asking);
}

static int ends(struct request *request, sem_t *semaphore, int answer)
{
    request_ends(request, answer == 0);
    /* It may be no lock since the thread began to wait. */
    if (answer == 0 && !lock_of(semaphore))
        release_begins(semaphore, request->caller);
    return answer;
}

static int semaphore_lock(void *semaphore)
{
    return real.sem_wait(semaphore) == 0 ? 0 : errno;
}
static int semaphore_look(void *semaphore)
{
    return real.sem_trywait(semaphore) == 0 ? 0 : EBUSY;
}
static int semaphore_timed(void *semaphore, const struct timespec *limit)
{
    return real.sem_timedwait(semaphore, limit) == 0 ? 0 : errno;
}

static const struct way semaphore_way = {SEMAPHORE, EXCLUSIVE, semaphore_lock, semaphore_look, semaphore_timed,
    semaphore_look};

EXPORT int sem_init(sem_t *semaphore, int shared, unsigned value)
{
    start();
    int answer = real.sem_init(semaphore, shared, value);
    if (answer == 0 && semaphores_are_locks && value == 1)
        lock_made(semaphore, shared ? SHARED_SEMAPHORE : SEMAPHORE, CALLER);
    else if (answer == 0 && lock_of(semaphore))
        lock_gone(semaphore);
    return answer;
}

EXPORT int sem_destroy(sem_t *semaphore)
{
    start();
    if (lock_of(semaphore))
        lock_gone(semaphore);
    return real.sem_destroy(semaphore);
}

/*
 * The kernel doesn't go on with a wait that has a time limit where a handler has run, though the handler was set with
 * SA_RESTART. So where there may be one the request is written at once, and the real call waits.
 */
static int semaphore_wait(struct request *request, sem_t *semaphore)
{
    if (!request->patient)
        return semaphore_lock(semaphore);
    int error = semaphore_look(semaphore);
    if (error != EBUSY)
        return error;
    if (!atomic_load(&has_handlers))
        return wait_patiently(request, &semaphore_way, semaphore);
    request_waits(request);
    return semaphore_lock(semaphore);
}

EXPORT int sem_wait(sem_t *semaphore)
{
    struct request request;
    if (!begins(&request, semaphore, ASKS, CALLER))
        return real.sem_wait(semaphore);
    int error = semaphore_wait(&request, semaphore);
    errno = error ? error : errno;
    return ends(&request, semaphore, error ? -1 : 0);
}

/* The calls that don't wait for good. */
#define WAITS_BRIEFLY(name, asking, real_call, ...)                                                                    \
    EXPORT int name(sem_t *semaphore, ##__VA_ARGS__)                                                                   \
    {                                                                                                                  \
        struct request request;                                                                                        \
        bool begun = begins(&request, semaphore, asking, CALLER);                                                      \
        int answer = real.real_call;                                                                                   \
        return begun ? ends(&request, semaphore, answer) : answer;                                                     \
    }
WAITS_BRIEFLY(sem_trywait, TRIES, sem_trywait(semaphore))
WAITS_BRIEFLY(sem_timedwait, ASKS_FOR_A_TIME, sem_timedwait(semaphore, limit), const struct timespec *limit)
WAITS_BRIEFLY(sem_clockwait, ASKS_FOR_A_TIME, sem_clockwait(semaphore, clock, limit), clockid_t clock,
    const struct timespec *limit)

EXPORT int sem_post(sem_t *semaphore)
{
    start();
    struct lock *lock = lock_of(semaphore);
    if (lock && held_of(&self, lock))
        release_begins(semaphore, CALLER);
    else if (lock)
        leave_alone(lock);
    return real.sem_post(semaphore);
}
