/*
 * The interposed calls of pthread, C11 and the C library. ways.h has what they share.
 */
#include "ways.h"

static int mutex_lock(void *mutex)
{
    return real.pthread_mutex_lock(mutex);
}
static int mutex_try(void *mutex)
{
    return real.pthread_mutex_trylock(mutex);
}

/*
 * A robust mutex that can't be recovered is left as taken by a try (glibc), so that others wait for it for good. It isn't
 * tried: the call with a time limit comes at once.
 */
static int mutex_look(void *mutex)
{
    enum { ROBUST = 16 };
    const pthread_mutex_t *robust = mutex;
    return UNLIKELY(robust->__data.__kind & ROBUST) ? EBUSY : real.pthread_mutex_trylock(mutex);
}

static int mutex_timed(void *mutex, const struct timespec *limit)
{
    return real.pthread_mutex_timedlock(mutex, limit);
}
static int read_lock(void *lock)
{
    return real.pthread_rwlock_rdlock(lock);
}
static int read_try(void *lock)
{
    return real.pthread_rwlock_tryrdlock(lock);
}
static int read_timed(void *lock, const struct timespec *limit)
{
    return real.pthread_rwlock_timedrdlock(lock, limit);
}
static int write_lock(void *lock)
{
    return real.pthread_rwlock_wrlock(lock);
}
static int write_try(void *lock)
{
    return real.pthread_rwlock_trywrlock(lock);
}
static int write_timed(void *lock, const struct timespec *limit)
{
    return real.pthread_rwlock_timedwrlock(lock, limit);
}
static int spin_lock(void *lock)
{
    return real.pthread_spin_lock(lock);
}
static int spin_try(void *lock)
{
    return real.pthread_spin_trylock(lock);
}

/* Spin locks have no such call: here it is a loop of tries. */
static int spin_timed(void *lock, const struct timespec *limit)
{
    struct timespec now;
    do {
        if (real.pthread_spin_trylock(lock) == 0)
            return 0;
        clock_gettime(CLOCK_REALTIME, &now);
    } while (now.tv_sec < limit->tv_sec || (now.tv_sec == limit->tv_sec && now.tv_nsec < limit->tv_nsec));
    return ETIMEDOUT;
}

static const struct way mutex_way = {MUTEX, EXCLUSIVE, mutex_lock, mutex_try, mutex_timed, mutex_look};
static const struct way read_way = {RWLOCK, SHARED, read_lock, read_try, read_timed, read_try};
static const struct way write_way = {RWLOCK, EXCLUSIVE, write_lock, write_try, write_timed, write_try};
static const struct way spin_way = {SPIN, EXCLUSIVE, spin_lock, spin_try, spin_timed, spin_try};

/* POSIX's calls answer as they are answered. */
static int posix(int answer)
{
    return answer;
}

/* C11's locks are POSIX's under other names, in the C libraries that have both: only the answers differ. */
static int c11(int answer)
{
    switch (answer) {
    case 0:
        return thrd_success;
    case ENOMEM:
        return thrd_nomem;
    case ETIMEDOUT:
        return thrd_timedout;
    case EBUSY:
        return thrd_busy;
    default:
        return thrd_error;
    }
}

/* The calls that ask for a lock of that way and may block, those that try, and those that release. */
#define LOCK_CALL(name, type, way, answered)                                                                           \
    EXPORT int name(type *lock)                                                                                        \
    {                                                                                                                  \
        return answered(acquire(&(way), (void *)lock));                                                                \
    }
#define TRY_CALL(name, type, way, answered)                                                                            \
    EXPORT int name(type *lock)                                                                                        \
    {                                                                                                                  \
        return answered(acquire_at_once(&(way), (void *)lock, CALLER));                                                \
    }
#define UNLOCK_CALL(name, type, real_call, answered)                                                                   \
    EXPORT int name(type *lock)                                                                                        \
    {                                                                                                                  \
        release((const void *)lock);                                                                                   \
        return answered(real_call);                                                                                    \
    }

/* Those that ask with a time limit of the program's: REAL_CALL is the real one, and PARAMETERS follow the lock. */
#define TIMED_CALL(name, type, way, answered, real_call, ...)                                                          \
    EXPORT int name(type *lock, __VA_ARGS__)                                                                           \
    {                                                                                                                  \
        struct request request;                                                                                        \
        bool begun = request_begins(&request, lock, (way).class, (way).mode, CALLER, ASKS_FOR_A_TIME);                 \
        int answer = (real_call);                                                                                      \
        if (begun)                                                                                                     \
            request_ends(&request, is_got(answer));                                                                    \
        return answered(answer);                                                                                       \
    }

/* A call that makes or destroys a lock: CALL is the real one, DONE what follows where it succeeds. */
#define AFTER_SUCCESS(call, done)                                                                                      \
    do {                                                                                                               \
        start();                                                                                                       \
        int answer = (call);                                                                                           \
        if (answer == 0)                                                                                               \
            done;                                                                                                      \
        return answer;                                                                                                 \
    } while (0)

LOCK_CALL(pthread_mutex_lock, pthread_mutex_t, mutex_way, posix)
LOCK_CALL(mtx_lock, mtx_t, mutex_way, c11)
LOCK_CALL(pthread_rwlock_rdlock, pthread_rwlock_t, read_way, posix)
LOCK_CALL(pthread_rwlock_wrlock, pthread_rwlock_t, write_way, posix)
LOCK_CALL(pthread_spin_lock, pthread_spinlock_t, spin_way, posix)

TRY_CALL(pthread_mutex_trylock, pthread_mutex_t, mutex_way, posix)
TRY_CALL(mtx_trylock, mtx_t, mutex_way, c11)
TRY_CALL(pthread_rwlock_tryrdlock, pthread_rwlock_t, read_way, posix)
TRY_CALL(pthread_rwlock_trywrlock, pthread_rwlock_t, write_way, posix)
TRY_CALL(pthread_spin_trylock, pthread_spinlock_t, spin_way, posix)

UNLOCK_CALL(pthread_mutex_unlock, pthread_mutex_t, real.pthread_mutex_unlock(lock), posix)
UNLOCK_CALL(mtx_unlock, mtx_t, real.pthread_mutex_unlock((pthread_mutex_t *)lock), c11)
UNLOCK_CALL(pthread_rwlock_unlock, pthread_rwlock_t, real.pthread_rwlock_unlock(lock), posix)
UNLOCK_CALL(pthread_spin_unlock, pthread_spinlock_t, real.pthread_spin_unlock(lock), posix)

TIMED_CALL(pthread_mutex_timedlock, pthread_mutex_t, mutex_way, posix, real.pthread_mutex_timedlock(lock, limit),
    const struct timespec *limit)
TIMED_CALL(pthread_mutex_clocklock, pthread_mutex_t, mutex_way, posix, real.pthread_mutex_clocklock(lock, clock, limit),
    clockid_t clock, const struct timespec *limit)
TIMED_CALL(mtx_timedlock, mtx_t, mutex_way, c11, real.pthread_mutex_timedlock((pthread_mutex_t *)lock, limit),
    const struct timespec *limit)
TIMED_CALL(pthread_rwlock_timedrdlock, pthread_rwlock_t, read_way, posix, real.pthread_rwlock_timedrdlock(lock, limit),
    const struct timespec *limit)
TIMED_CALL(pthread_rwlock_clockrdlock, pthread_rwlock_t, read_way, posix,
    real.pthread_rwlock_clockrdlock(lock, clock, limit), clockid_t clock, const struct timespec *limit)
TIMED_CALL(pthread_rwlock_timedwrlock, pthread_rwlock_t, write_way, posix, real.pthread_rwlock_timedwrlock(lock, limit),
    const struct timespec *limit)
TIMED_CALL(pthread_rwlock_clockwrlock, pthread_rwlock_t, write_way, posix,
    real.pthread_rwlock_clockwrlock(lock, clock, limit), clockid_t clock, const struct timespec *limit)

EXPORT int pthread_mutex_init(pthread_mutex_t *mutex, const pthread_mutexattr_t *attributes)
{
    error_if_held(ERROR_REMADE, mutex, CALLER);
    AFTER_SUCCESS(real.pthread_mutex_init(mutex, attributes), lock_made(mutex, MUTEX, CALLER));
}

EXPORT int mtx_init(mtx_t *mutex, int kind)
{
    AFTER_SUCCESS(real.mtx_init(mutex, kind), lock_made(mutex, MUTEX, CALLER));
}

EXPORT int pthread_rwlock_init(pthread_rwlock_t *lock, const pthread_rwlockattr_t *attributes)
{
    error_if_held(ERROR_REMADE, lock, CALLER);
    AFTER_SUCCESS(real.pthread_rwlock_init(lock, attributes), lock_made(lock, RWLOCK, CALLER));
}

EXPORT int pthread_spin_init(pthread_spinlock_t *lock, int shared)
{
    enum class class = shared == PTHREAD_PROCESS_SHARED ? SHARED_SPIN : SPIN;
    AFTER_SUCCESS(real.pthread_spin_init(lock, shared), lock_made((const void *)lock, class, CALLER));
}

EXPORT int pthread_mutex_destroy(pthread_mutex_t *mutex)
{
    start();
    int answer = real.pthread_mutex_destroy(mutex);
    if (answer == 0)
        lock_gone(mutex);
    else if (answer == EBUSY)
        error_at(ERROR_DESTROYED, mutex, CALLER);
    return answer;
}

EXPORT void mtx_destroy(mtx_t *mutex)
{
    start();
    real.pthread_mutex_destroy((pthread_mutex_t *)mutex);
    lock_gone(mutex);
}

EXPORT int pthread_rwlock_destroy(pthread_rwlock_t *lock)
{
    error_if_held(ERROR_DESTROYED, lock, CALLER);
    AFTER_SUCCESS(real.pthread_rwlock_destroy(lock), lock_gone(lock));
}

EXPORT int pthread_spin_destroy(pthread_spinlock_t *lock)
{
    AFTER_SUCCESS(real.pthread_spin_destroy(lock), lock_gone((const void *)lock));
}

/* A wait until any other time is refused. */
static bool is_time(const struct timespec *limit)
{
    return limit && limit->tv_nsec >= 0 && limit->tv_nsec < 1000000000;
}

/* A wait for a condition: it may end by the thread's cancellation, and has the mutex again then too. */
struct wait {
    struct request request;
    bool recorded;
    int answer;
};

static void end_wait(void *wait_over)
{
    struct wait *wait = wait_over;
    if (wait->recorded)
        wait_ends(&wait->request, wait->answer);
}

/* In a steered run the thread may give the mutex back and pause: to the program the wait has got its mutex later. */
static COLD void wait_once_more(struct wait *wait, void *mutex)
{
    if (!wait->recorded || (wait->answer != 0 && wait->answer != ETIMEDOUT) || !steer_wait_pauses())
        return;
    real.pthread_mutex_unlock(mutex);
    steer_pauses_after_wait(&wait->request);
    int answer = real.pthread_mutex_lock(mutex);
    if (answer != 0)
        wait->answer = answer;
}

#define WAIT_CALL(name, condition_type, mutex_type, answered, asks_again, real_call, ...)                              \
    EXPORT int name(condition_type *condition, mutex_type *mutex, ##__VA_ARGS__)                                       \
    {                                                                                                                  \
        struct wait wait = {.answer = 0};                                                                              \
        start();                                                                                                       \
        wait.recorded = wait_begins(&wait.request, mutex, asks_again, CALLER);                                         \
        if (!wait.recorded)                                                                                            \
            error_of_wait((const pthread_mutex_t *)(mutex), CALLER);                                                   \
        pthread_cleanup_push(end_wait, &wait);                                                                         \
        if (UNLIKELY(steers) && wait.recorded)                                                                         \
            steer_wait_begins(&wait.request);                                                                          \
        wait.answer = real.real_call;                                                                                  \
        if (UNLIKELY(steers))                                                                                          \
            wait_once_more(&wait, mutex);                                                                              \
        pthread_cleanup_pop(1);                                                                                        \
        return answered(wait.answer);                                                                                  \
    }

WAIT_CALL(pthread_cond_wait, pthread_cond_t, pthread_mutex_t, posix, true, pthread_cond_wait(condition, mutex))
WAIT_CALL(pthread_cond_timedwait, pthread_cond_t, pthread_mutex_t, posix, is_time(limit),
    pthread_cond_timedwait(condition, mutex, limit), const struct timespec *limit)
WAIT_CALL(pthread_cond_clockwait, pthread_cond_t, pthread_mutex_t, posix, is_time(limit),
    pthread_cond_clockwait(condition, mutex, clock, limit), clockid_t clock, const struct timespec *limit)
WAIT_CALL(cnd_wait, cnd_t, mtx_t, c11, true, pthread_cond_wait((pthread_cond_t *)condition, (pthread_mutex_t *)mutex))
WAIT_CALL(cnd_timedwait, cnd_t, mtx_t, c11, is_time(limit),
    pthread_cond_timedwait((pthread_cond_t *)condition, (pthread_mutex_t *)mutex, limit), const struct timespec *limit)

/* As long as the program has no handlers of signals, none is kept out of the recorder. */
static void handler_comes(handler *given)
{
    start();
    if (given != SIG_DFL && given != SIG_IGN && given != SIG_HOLD)
        atomic_store(&has_handlers, true);
}

EXPORT int sigaction(int number, const struct sigaction *restrict action, struct sigaction *restrict before)
{
    handler_comes(action ? action->sa_handler : SIG_DFL);
    if (action && (action->sa_flags & SA_ONSTACK))
        atomic_store(&has_small_stacks, true);
    return real.sigaction(number, action, before);
}

/* __sysv_signal is what signal is in a program that keeps to POSIX or C alone. */
#define HANDLER_CALL(name, real_name)                                                                                  \
    EXPORT handler *name(int number, handler *given)                                                                   \
    {                                                                                                                  \
        handler_comes(given);                                                                                          \
        return real.real_name(number, given);                                                                          \
    }
HANDLER_CALL(signal, signal)
HANDLER_CALL(bsd_signal, signal)
HANDLER_CALL(ssignal, signal)
HANDLER_CALL(__sysv_signal, __sysv_signal)
HANDLER_CALL(sysv_signal, __sysv_signal)
HANDLER_CALL(sigset, sigset)

/* What pthread_atfork calls. An allocator may call it before the recorder's constructor has run. */
EXPORT int __register_atfork(void (*prepare)(void), void (*parent)(void), void (*child)(void), void *object)
{
    start();
    fork_is_watched();
    return real.__register_atfork(prepare, parent, child, object);
}

/* What was at the library's addresses means nothing any more. */
EXPORT int dlclose(void *handle)
{
    AFTER_SUCCESS(real.dlclose(handle), library_closed());
}

EXPORT void free(void *block)
{
    if (UNLIKELY(!real.free))
        start();
    if (block && real.free) {
        locks_freed(block);
        real.free(block);
    }
}
