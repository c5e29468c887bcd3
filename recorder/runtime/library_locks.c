/*
 * Locks of libraries that have their own, on futexes, and call them by public names: GLib's GMutex, and the locks and
 * critical sections of OpenMP. They are recorded as locks whose memory is never read. None of them has a call with a
 * time limit, so a request that isn't new and waits isn't shown in a circle.
 */
#include "ways.h"

#include "library_locks.h"

/* The omp_nest_lock_t and the name of a critical section are known here by their addresses alone. */
typedef void by_address(void *);
typedef int answered_by_address(void *);

/* Each function of them, and what it does: one that has its OWN body below does more. */
#define EACH_OF_GLIB(EACH)                                                                                             \
    EACH(MAKES, glib, g_mutex_init)                                                                                    \
    EACH(DESTROYS, glib, g_mutex_clear)                                                                                \
    EACH(ASKS_FOR, glib, g_mutex_lock)                                                                                 \
    EACH(TRIES_FOR, glib, g_mutex_trylock)                                                                             \
    EACH(RELEASES, glib, g_mutex_unlock)                                                                               \
    EACH(OWN, glib, g_cond_wait)                                                                                       \
    EACH(OWN, glib, g_cond_wait_until)
#define EACH_OF_OPENMP(EACH)                                                                                           \
    EACH(MAKES, openmp, omp_init_lock)                                                                                 \
    EACH(DESTROYS, openmp, omp_destroy_lock)                                                                           \
    EACH(ASKS_FOR, openmp, omp_set_lock)                                                                               \
    EACH(TRIES_FOR, openmp, omp_test_lock)                                                                             \
    EACH(RELEASES, openmp, omp_unset_lock)                                                                             \
    EACH(MAKES, openmp, omp_init_nest_lock)                                                                            \
    EACH(DESTROYS, openmp, omp_destroy_nest_lock)                                                                      \
    EACH(OWN, openmp, omp_set_nest_lock)                                                                               \
    EACH(OWN, openmp, omp_test_nest_lock)                                                                              \
    EACH(OWN, openmp, omp_unset_nest_lock)                                                                             \
    EACH(OWN, openmp, GOMP_critical_start)                                                                             \
    EACH(OWN, openmp, GOMP_critical_end)                                                                               \
    EACH(OWN, openmp, GOMP_critical_name_start)                                                                        \
    EACH(RELEASES, openmp, GOMP_critical_name_end)

#define IN_TABLE(what, library, name) AT_##name,
enum { EACH_OF_GLIB(IN_TABLE) GLIB_COUNT };
enum { EACH_OF_OPENMP(IN_TABLE) OPENMP_COUNT };
static struct other glib[GLIB_COUNT], openmp[OPENMP_COUNT];

/* The real function: nobody comes here before it is known. */
#define REAL(type, library, name)                                                                                      \
    ((__typeof__(type) *)atomic_load_explicit(&(library)[AT_##name].real, memory_order_relaxed))

/* The ways of calls without an answer, and of tries that answer 0 where the lock isn't free. No call has a time limit. */
#define WAY(library, lock_name, try_name)                                                                              \
    static int library##_lock(void *lock)                                                                              \
    {                                                                                                                  \
        return REAL(by_address, library, lock_name)(lock), 0;                                                          \
    }                                                                                                                  \
    static int library##_try(void *lock)                                                                               \
    {                                                                                                                  \
        return REAL(answered_by_address, library, try_name)(lock) ? 0 : EBUSY;                                         \
    }                                                                                                                  \
    static int library##_timed(void *lock, const struct timespec *unused)                                              \
    {                                                                                                                  \
        (void)unused;                                                                                                  \
        return library##_lock(lock);                                                                                   \
    }                                                                                                                  \
    static const struct way library##_way = {SPIN, EXCLUSIVE, library##_lock, library##_try, library##_timed,          \
        library##_try}

WAY(glib, g_mutex_lock, g_mutex_trylock);
WAY(openmp, omp_set_lock, omp_test_lock);

/* The library's calls that make a lock, destroy it, ask for it, try to get it, and release it. */
#define AND_THEN(library, name, done)                                                                                  \
    static void own_##name(void *lock)                                                                                 \
    {                                                                                                                  \
        REAL(by_address, library, name)(lock);                                                                         \
        done;                                                                                                          \
    }
#define MAKES(library, name) AND_THEN(library, name, lock_made(lock, SPIN, CALLER))
#define DESTROYS(library, name) AND_THEN(library, name, lock_gone(lock))
#define ASKS_FOR(library, name)                                                                                        \
    static void own_##name(void *lock)                                                                                 \
    {                                                                                                                  \
        acquire(&library##_way, lock);                                                                                 \
    }
#define TRIES_FOR(library, name)                                                                                       \
    static int own_##name(void *lock)                                                                                  \
    {                                                                                                                  \
        return acquire_at_once(&library##_way, lock, CALLER) == 0;                                                     \
    }
#define RELEASES(library, name)                                                                                        \
    static void own_##name(void *lock)                                                                                 \
    {                                                                                                                  \
        release(lock);                                                                                                 \
        REAL(by_address, library, name)(lock);                                                                         \
    }

#define OWN(library, name)
#define DEFINED(what, library, name) what(library, name)
EACH_OF_GLIB(DEFINED)
EACH_OF_OPENMP(DEFINED)

static bool own_wait(void *condition, void *mutex, struct caller caller, const int64_t *end)
{
    struct request request;
    bool is_signaled = true;
    start();
    bool recorded = wait_begins(&request, mutex, true, caller);
    if (end)
        is_signaled = REAL(int(void *, void *, int64_t), glib, g_cond_wait_until)(condition, mutex, *end);
    else
        REAL(void(void *, void *), glib, g_cond_wait)(condition, mutex);
    if (recorded)
        wait_ends(&request, 0);
    return is_signaled;
}

static void own_g_cond_wait(void *condition, void *mutex)
{
    own_wait(condition, mutex, CALLER, NULL);
}

static int own_g_cond_wait_until(void *condition, void *mutex, int64_t end)
{
    return own_wait(condition, mutex, CALLER, &end);
}

/*
 * A lock that its holder may take again. The try says how often it is held then, so that only the first time is
 * recorded, and the last release.
 */
static void own_omp_set_nest_lock(void *lock)
{
    struct request request;
    int times = REAL(answered_by_address, openmp, omp_test_nest_lock)(lock);
    if (times > 1)
        return;
    bool begun = request_begins(&request, lock, SPIN, EXCLUSIVE, CALLER, ASKS);
    if (times == 0)
        REAL(by_address, openmp, omp_set_nest_lock)(lock);
    if (begun)
        request_ends(&request, true);
}

static int own_omp_test_nest_lock(void *lock)
{
    struct request request;
    int times = REAL(answered_by_address, openmp, omp_test_nest_lock)(lock);
    if (times == 1 && request_begins(&request, lock, SPIN, EXCLUSIVE, CALLER, TRIES))
        request_ends(&request, true);
    return times;
}

static void own_omp_unset_nest_lock(void *lock)
{
    by_address *unset = REAL(by_address, openmp, omp_unset_nest_lock);
    if (REAL(answered_by_address, openmp, omp_test_nest_lock)(lock) == 2)
        release(lock);
    unset(lock);
    unset(lock);
}

/* What stands for the one critical section without a name. */
static char omp_critical;

static void enter_critical(const void *lock, struct caller caller, by_address *real_start, void *argument)
{
    struct request request;
    bool begun = request_begins(&request, lock, SPIN, EXCLUSIVE, caller, ASKS);
    real_start(argument);
    if (begun)
        request_ends(&request, true);
}

/* The real ones take no argument, and look at none. */
static void own_GOMP_critical_start(void)
{
    enter_critical(&omp_critical, CALLER, REAL(by_address, openmp, GOMP_critical_start), NULL);
}

static void own_GOMP_critical_end(void)
{
    release(&omp_critical);
    REAL(void(void), openmp, GOMP_critical_end)();
}

static void own_GOMP_critical_name_start(void **name)
{
    enter_critical(name, CALLER, REAL(by_address, openmp, GOMP_critical_name_start), name);
}

#define OWN_OF(what, library, function) [AT_##function] = {.name = #function, .own = (void *)own_##function},
static struct other glib[GLIB_COUNT] = {EACH_OF_GLIB(OWN_OF)};
static struct other openmp[OPENMP_COUNT] = {EACH_OF_OPENMP(OWN_OF)};
static const char *const glib_names[] = {"libglib-2.0", NULL};
static const char *const openmp_names[] = {"libgomp", "libomp", "libiomp5", NULL};

struct other_library others[] = {{glib_names, glib, GLIB_COUNT}, {openmp_names, openmp, OPENMP_COUNT}};
const uint32_t others_count = sizeof others / sizeof *others;
