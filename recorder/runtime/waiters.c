/*
 * Threads that wait for a condition while they hold locks.
 *
 * Such a wait ends with its mutex or not at all, whoever signals and when. So the thread counts as one that waits for the
 * mutex, from the beginning on: where the mutex is held by a thread that waits for one of its locks, neither ever goes on.
 * Inside the C library's call it can't write its request. Another thread does that, once a request for one of its locks
 * is written: else it is in no circle.
 *
 * Each circle is seen. Such a thread had its mutex when its wait began. Whoever holds that mutex in a circle took it after
 * that, and began to wait after that. So the last one of a circle to wait asks for a lock by a call of its own. When that
 * request is written, or a later one of the circle, all of these threads are found here.
 */
#include "judge.h"

#include <string.h>
#include <sys/prctl.h>
#include <sys/syscall.h>

/* Further threads are passed over: no trace has seats for more. */
enum { WAITERS = SEATS };

/* A record is taken and given back without the mutex, unless somebody looks at it, or has written its request. */
enum { FREE, BEGINS, WAITS, LOOKED_AT, WRITTEN };

/* Nothing of this is in the thread's own stack, from which a handler of signals may jump. */
struct waiter {
    _Atomic int state;
    struct thread *thread;
    struct request request; /* for the mutex */
    long number;
    char name[THREAD_NAME_ROOM];
};

static struct waiter waiters[WAITERS];
static _Atomic uint32_t unwritten;

static bool turns(struct waiter *waiter, int from, int to)
{
    return atomic_load_explicit(&waiter->state, memory_order_relaxed) == from
        && atomic_compare_exchange_strong(&waiter->state, &from, to);
}

/* NULL where no record is free. */
static struct waiter *waiter_taken(void)
{
    struct waiter *waiter = waiters;
    while (!turns(waiter, FREE, BEGINS))
        if (++waiter == waiters + WAITERS)
            return NULL;
    waiter->thread = &self;
    waiter->number = thread_number(&self);
    thread_name(&self, waiter->name);
    return waiter;
}

void waiter_begins(const struct request *request)
{
    struct waiter *waiter = stream_has_file() || judge_watches_waits() ? waiter_taken() : NULL;
    if (!waiter)
        return;
    waiter->request = *request;
    self.waiter = waiter;
    atomic_fetch_add(&unwritten, 1);
    atomic_store(&waiter->state, WAITS);
}

void waiter_forgotten(struct thread *thread)
{
    if (thread->waiter && atomic_exchange(&thread->waiter->state, FREE) == WAITS)
        atomic_fetch_sub(&unwritten, 1);
    thread->waiter = NULL;
}

void waiter_ends(struct request *request)
{
    if (!self.waiter)
        return;
    if (turns(self.waiter, WAITS, FREE)) {
        atomic_fetch_sub(&unwritten, 1);
        self.waiter = NULL;
        return;
    }
    ENTERS_OR return;
    *request = self.waiter->request;
    waiter_forgotten(&self);
}

long thread_number(const struct thread *thread)
{
    return thread == &self ? gettid() : thread->waiter->number;
}

void thread_name(const struct thread *thread, char name[THREAD_NAME_ROOM])
{
    *name = '\0';
    if (thread == &self)
        prctl(PR_GET_NAME, name);
    else
        memcpy(name, thread->waiter->name, THREAD_NAME_ROOM);
}

/* Whether the stream has a request for one of its locks; not where one was taken from it. */
static bool is_waited_for(const struct thread *thread)
{
    bool found = false;
    for (uint32_t i = 0; i < thread->count; i++) {
        const struct held *held = &thread->held[i];
        if (held->lost != atomic_load(&held->lock->lost))
            return false;
        found |= number_has_others(held->lock, held->written & IS_WRITTEN);
    }
    return found;
}

/* A thread that has left its wait by a jump may have ended since. */
static bool is_there(const struct waiter *waiter)
{
    return atomic_load(&waiter->request.lock->address) == (uintptr_t)waiter->request.address
        && syscall(SYS_tgkill, getpid(), waiter->number, 0) == 0;
}

/* Where one is written, others may come to be waited for. */
COLD static void write_waiters(void)
{
    for (uint32_t i = 0; i < WAITERS;) {
        struct waiter *waiter = &waiters[i++];
        if (!turns(waiter, WAITS, LOOKED_AT))
            continue;
        bool is_due = is_there(waiter) && is_waited_for(waiter->thread);
        if (is_due) {
            write_request_of(&waiter->request);
            atomic_fetch_sub(&unwritten, 1);
            i = 0;
        }
        atomic_store(&waiter->state, is_due ? WRITTEN : WAITS);
    }
}

void waiters_written(void)
{
    if (UNLIKELY(atomic_load(&unwritten) != 0))
        write_waiters();
}

void waiters_each(void (*function)(const struct request *request))
{
    for (uint32_t i = 0; i < WAITERS; i++)
        if (atomic_load(&waiters[i].state) == WRITTEN && is_there(&waiters[i]))
            function(&waiters[i].request);
}

/* The child's one thread doesn't wait. */
void waiters_forked(void)
{
    for (uint32_t i = 0; i < WAITERS; i++)
        atomic_store(&waiters[i].state, FREE);
    atomic_store(&unwritten, 0);
    self.waiter = NULL;
}
