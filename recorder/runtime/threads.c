/*
 * Who made each thread: the place of its pthread_create or thrd_create, which is told beside its seat.
 *
 * A thread begins in the recorder, which goes on by a jump to what the program wants to run: among its callers there
 * is no more than without the recorder.
 */
#include "quick.h"

#include "witness.h"

/* In their order: so it is known which thread was joined before another one was made. */
_Atomic uint32_t threads_made_and_joined;
_Atomic uint32_t threads_in_making;

/* Threads that are made and haven't begun. Where all of these are taken, a thread's maker isn't known. */
enum { BEGINNINGS = 1024 };

static struct beginning {
    _Atomic bool taken;
    struct birth birth;
    union {
        void *(*posix)(void *);
        thrd_start_t c11;
    } routine;
    void *argument;
} beginnings[BEGINNINGS];

/* The place that the next thread of this one's is made at, where it was told (witness.h). */
static __thread unsigned makes_at __attribute__((tls_model("initial-exec")));

EXPORT void witness_recorder_makes_at(unsigned place)
{
    makes_at = place;
}

/* The thread begins: what its maker has left for it. */
static struct beginning begun(struct beginning *given)
{
    struct beginning beginning = *given;
    atomic_store(&given->taken, false);
    self.birth = beginning.birth;
    errors_of_thread();
    return beginning;
}

/* NULL where the maker isn't to be known: nothing is recorded, or there is no room. */
static struct beginning *taken_by(struct caller caller, void *argument)
{
    struct beginning *found = NULL;
    GOES_INSIDE_OR(caller.stack) return NULL;
    for (uint32_t i = 0; i < BEGINNINGS && !found; i++)
        if (!atomic_load_explicit(&beginnings[i].taken, memory_order_relaxed)
            && !atomic_exchange(&beginnings[i].taken, true))
            found = &beginnings[i];
    if (found) {
        uint32_t place = place_of(site_or(makes_at, caller));
        atomic_fetch_add(&threads_in_making, 1);
        uint32_t at = atomic_fetch_add(&threads_made_and_joined, 1);
        found->birth = (struct birth){place, (uint32_t)gettid(), at, self.birth.at, self.birth.maker};
        found->argument = argument;
    }
    /* From here on it tells of its pairs of single locks again. */
    if (found && self.serial >> SERIAL_BITS < PAIR_TELLINGS - 1) {
        self.serial += 1u << SERIAL_BITS;
        forget_requests(&self);
    }
    makes_at = 0;
    return found;
}

/* C11's success is POSIX's. MAKE(routine, argument) is the real call. */
#define CREATES(name, kind, answer_type, parameters, make)                                                             \
    static answer_type begin_##kind(void *given)                                                                       \
    {                                                                                                                  \
        struct beginning beginning = begun(given);                                                                     \
        return beginning.routine.kind(beginning.argument);                                                             \
    }                                                                                                                  \
    EXPORT int name parameters                                                                                         \
    {                                                                                                                  \
        start();                                                                                                       \
        struct beginning *beginning = taken_by(CALLER, argument);                                                      \
        if (!beginning)                                                                                                \
            return make(routine, argument);                                                                            \
        beginning->routine.kind = routine;                                                                             \
        int answer = make(begin_##kind, beginning);                                                                    \
        atomic_fetch_sub(&threads_in_making, 1);                                                                       \
        if (answer != thrd_success)                                                                                    \
            atomic_store(&beginning->taken, false);                                                                    \
        return answer;                                                                                                 \
    }
#define CREATE_POSIX(function, of) real.pthread_create(thread, attributes, function, of)
#define CREATE_C11(function, of) real.thrd_create(thread, function, of)
CREATES(pthread_create, posix, void *,
    (pthread_t * thread, const pthread_attr_t *attributes, void *(*routine)(void *), void *argument), CREATE_POSIX)
CREATES(thrd_create, c11, int, (thrd_t * thread, thrd_start_t routine, void *argument), CREATE_C11)

#define JOINS(name, type, answer_type)                                                                                 \
    EXPORT int name(type thread, answer_type *answered)                                                                \
    {                                                                                                                  \
        start();                                                                                                       \
        struct joining joining = order_joins(thread);                                                                  \
        int answer = real.name(thread, answered);                                                                      \
        if (answer == thrd_success)                                                                                    \
            order_of_joined(joining);                                                                                  \
        return answer;                                                                                                 \
    }
JOINS(pthread_join, pthread_t, void *)
JOINS(thrd_join, thrd_t, int)

/* In the child no thread is about to begin. */
void threads_forked(void)
{
    for (uint32_t i = 0; i < BEGINNINGS; i++)
        atomic_store_explicit(&beginnings[i].taken, false, memory_order_relaxed);
    atomic_store(&threads_in_making, 0);
}
