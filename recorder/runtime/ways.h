/*
 * The ways to ask for a lock, for the files that stand before such calls: each makes the real call once and answers what
 * it answers.
 *
 * A request that is written before it blocks, and one by a thread that holds nothing, goes straight to the real call.
 * Any other that doesn't get its lock at once waits for a second by the call with a time limit; then it is written as
 * pending, and goes on to the real call. So a program that hangs has its circle in the trace.
 */
#ifndef WAYS_H
#define WAYS_H

#include "quick.h"
#include "steer.h"

#include <errno.h>

/*
 * Its calls answer as those of POSIX: 0 where the lock was got, EBUSY, ETIMEDOUT. `look` is what comes in the place of
 * `lock`, to see whether the lock is free: `try`, unless a try does something else to the lock than to ask for it.
 */
struct way {
    enum class class;
    enum mode mode;
    int (*lock)(void *);
    int (*try)(void *);
    int (*timed)(void *, const struct timespec *);
    int (*look)(void *);
};

static inline bool is_got(int answer)
{
    return LIKELY(answer == 0) || answer == EOWNERDEAD;
}

/* How many milliseconds a request waits before it is written as pending: always, and in a steered run. */
enum { PATIENCE = 1000, STEERED_PATIENCE = 50, STEERED_LOOKS = 5 };

static inline struct timespec time_from_now(uint32_t milliseconds)
{
    struct timespec now;
    clock_gettime(CLOCK_REALTIME, &now);
    now.tv_sec += milliseconds / 1000;
    now.tv_nsec += milliseconds % 1000 * 1000000L;
    if (now.tv_nsec >= 1000000000) {
        now.tv_sec++;
        now.tv_nsec -= 1000000000;
    }
    return now;
}

/* In a steered run it is told some times on end whom the lock names as its holder. */
COLD static int wait_watched(const struct request *request, const struct way *way, void *address)
{
    for (int looks = 0; looks < STEERED_LOOKS; looks++) {
        steer_waits(request);
        struct timespec limit = time_from_now(STEERED_PATIENCE);
        int answer = way->timed(address, &limit);
        if (answer != ETIMEDOUT)
            return answer;
    }
    return way->lock(address);
}

COLD static int wait_patiently(struct request *request, const struct way *way, void *address)
{
    struct timespec limit = time_from_now(steers ? STEERED_PATIENCE : PATIENCE);
    int answer = way->timed(address, &limit);
    if (answer != ETIMEDOUT)
        return answer;
    request_waits(request);
    return steers ? wait_watched(request, way, address) : way->lock(address);
}

/* The caller comes in three words, which stand in registers. */
static __attribute__((noinline)) int acquire_slowly(const struct way *way, void *address, uintptr_t pc, uintptr_t stack,
    uintptr_t base)
{
    struct caller caller = {pc, stack, base};
    struct request request;
    if (UNLIKELY(!request_begins(&request, address, way->class, way->mode, caller, ASKS)))
        return way->lock(address);
    if (UNLIKELY(request.again != NULL) && way->mode == SHARED)
        error_of_reread(&request);
    int answer = request.patient ? way->look(address) : way->lock(address);
    if (UNLIKELY(request.patient && answer == EBUSY))
        answer = wait_patiently(&request, way, address);
    request_ends(&request, is_got(answer));
    return answer;
}

/*
 * The request took the quick way and isn't over: the lock wasn't free when it was tried, or the recorder has taken the call
 * for one that was left (quick_ends). Then what it got is held as after a try.
 */
static COLD int acquire_on(const struct way *way, void *address, uintptr_t pc, uintptr_t stack, uintptr_t base, int answer)
{
    struct caller caller = {pc, stack, base};
    struct request request;
    if (answer == EBUSY)
        return acquire_slowly(way, address, pc, stack, base);
    if (is_got(answer) && request_begins(&request, address, way->class, way->mode, caller, TRIES))
        request_ends(&request, true);
    return answer;
}

/* Makes the real call. False where the request isn't over then. */
QUICK bool quick_call(const struct way *way, void *address, const struct quick *quick, uintptr_t stack, int *answer)
{
    if (!quick->nested) {
        *answer = way->lock(address);
        return LIKELY(quick_ends(quick, is_got(*answer), stack));
    }
    *answer = way->look(address);
    return LIKELY(quick_ends(quick, is_got(*answer), stack)) && LIKELY(*answer != EBUSY);
}

/*
 * The thread is inside already. The call comes from a place that isn't told, or not alone: its callers are looked at. Or it
 * isn't remembered. That it is looked for here keeps the quick way free of such calls: so it has few registers to save. Where
 * each acquisition is to have its stack, one that was met goes this way, too.
 */
static __attribute__((noinline)) int acquire_from_afar(const struct way *way, void *address, uintptr_t pc,
    uintptr_t stack, uintptr_t base)
{
    struct quick quick = {.thread = &self};
    struct caller caller = {pc, stack, base};
    uint32_t place = 0, met = 0;
    if (UNLIKELY(stacks_all))
        met = stack_met(caller, &place);
    else
        place = place_passed(caller);
    if (UNLIKELY(!place || !quick_is_known(&quick, address, way->mode, place, true))) {
        goes_outside(quick.thread);
        return acquire_slowly(way, address, pc, stack, base);
    }
    if (UNLIKELY(met))
        held_has_stack(quick.held, met);
    int answer;
    return LIKELY(quick_call(way, address, &quick, stack, &answer)) ? answer
                                                                    : acquire_on(way, address, pc, stack, base, answer);
}

/* Makes the call of that way for the function's own caller, which is read where it is wanted: so it needn't be kept. */
#define ON_THE_WAY(function, ...) function(way, address, CALLER.pc, CALLER.stack, CALLER.base, ##__VA_ARGS__)

QUICK int acquire(const struct way *way, void *address)
{
    struct quick quick;
    if (UNLIKELY(!quick_begins(&quick, HERE)))
        return is_asleep() ? way->lock(address) : ON_THE_WAY(acquire_slowly);
    uint32_t place = place_at_pc(CALLER.pc);
    if (UNLIKELY(!place || detour_at(place)) || UNLIKELY(!quick_is_known(&quick, address, way->mode, place, false)))
        return ON_THE_WAY(acquire_from_afar);
    int answer;
    return LIKELY(quick_call(way, address, &quick, HERE, &answer)) ? answer : ON_THE_WAY(acquire_on, answer);
}

static __attribute__((noinline)) void release_slowly(const void *address, uintptr_t pc, uintptr_t stack, uintptr_t base)
{
    release_begins(address, (struct caller){pc, stack, base});
}

QUICK void release(const void *address)
{
    if (UNLIKELY(!quick_released(address, HERE)) && !is_asleep())
        release_slowly(address, CALLER.pc, CALLER.stack, CALLER.base);
}

static inline int acquire_at_once(const struct way *way, void *address, struct caller caller)
{
    struct request request;
    if (is_asleep() || UNLIKELY(!request_begins(&request, address, way->class, way->mode, caller, TRIES)))
        return way->try(address);
    int answer = way->try(address);
    request_ends(&request, is_got(answer));
    return answer;
}

#endif
