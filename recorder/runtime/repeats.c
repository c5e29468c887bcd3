/*
 * Requests with a time limit that a thread makes again and again, at one place, while it holds the same locks: a loop around
 * such a request waits as long as one without a limit. When that has gone on for a second, the request is written as one that
 * waits, as after a second any other is, and its order is told once more: by one that was repeated.
 *
 * Between two of these requests the thread is in no call, and its line stays: it lingers. What the thread does next at
 * another place, or with what it holds, gives it up first. So nothing of the thread stands in between, as if it had asked
 * once. A thread that lets its locks go and takes them anew is none of these: each lock that it held when such a request
 * ended has a mark (KEPT_ON), which one that is acquired anew hasn't.
 */
#include "quick.h"

/* In milliseconds; and how often a thread's requests come to linger at most: each time is some lines. */
enum { A_SECOND = 1000, TIMES_MOST = 64 };

static uint64_t locks_of(const struct request *request)
{
    return locks_with(locks_held(request->thread), request->lock, request->mode);
}

/* Whether the thread made this request last, and kept all that it held. */
static bool is_the_same(const struct request *request)
{
    const struct thread *thread = request->thread;
    bool is = thread->repeated.place == request->place && thread->repeated.locks == locks_of(request);
    for (uint32_t i = 0; is && i < thread->count; i++)
        is = thread->held[i].written & KEPT_ON;
    return is;
}

/* Whether the request counts as one without a limit. What lingers of another one is given up. */
bool repeat_counts(struct request *request)
{
    struct repeated *repeated = &request->thread->repeated;
    bool counts = request->timed && !request->again && repeated->locks && is_the_same(request);
    if (repeated->lingers && !counts)
        repeat_ends(request->thread);
    if (!counts || (!repeated->lingers && (repeated->times == TIMES_MOST || milliseconds() - repeated->since < A_SECOND)))
        return false;
    repeated->times += !repeated->lingers;
    request->timed = false;
    request->repeats = true;
    if (repeated->lingers) {
        request->number = request->thread->asked;
        request->pending = request->number != 0;
    }
    return true;
}

void repeat_noted(const struct request *request)
{
    struct thread *thread = request->thread;
    struct repeated *repeated = &thread->repeated;
    if (!is_the_same(request))
        *repeated = (struct repeated){locks_of(request), request->place, false, repeated->times, milliseconds()};
    repeated->lingers = request->pending != 0;
    for (uint32_t i = 0; i < thread->count; i++)
        thread->held[i].written |= KEPT_ON;
}

void repeat_ends(struct thread *thread)
{
    thread->repeated = (struct repeated){.times = thread->repeated.times};
    aside(write_given_up, &(struct request){.thread = thread});
}
