/*
 * Who judges the lines of a stream while they are written. In libwitness that is the verifier (libwitness/judge.c). The
 * recorder by itself has nobody for it: there each of these is nothing.
 */
#ifndef JUDGE_H
#define JUDGE_H

#include "recorder.h"

#ifdef LIBWITNESS

/* What isn't told yet and isn't a report: a bit for each. */
extern _Atomic uint32_t judge_news;

/* Whether there may be a judge, who is wanted though nobody asks for the program's lines. */
static inline bool judge_is_there(void)
{
    return true;
}
bool judge_is_wanted(void);
void judge_wants(void); /* the program's own wish */
/* There is no memory for the tables; the recorder is awake from here on; a child of fork begins anew; the process ends. */
void judge_lacks_memory(void);
void judge_begins(void);
void judge_forked(void);
void judge_ends(void);

/* A line of each kind, under the mutex. */
void judge_made(const struct thread *thread, const struct lock *lock);
void judge_asked(const struct thread *thread, uint32_t lock, uint8_t mode, uint32_t place);
void judge_got(const struct thread *thread, uint32_t lock);
void judge_gave_up(const struct thread *thread, uint32_t lock);
void judge_tried(const struct thread *thread, uint32_t lock, uint8_t mode, uint32_t place);
void judge_released(const struct thread *thread, uint32_t lock, uint8_t mode);
void judge_missed(enum missed what);

/* Whether requests that wait for long are checked for a deadlock. They teach no new order. */
bool judge_watches_waits(void);
/* Whether the request, which is written, closes a circle of threads that wait for one another. Under the mutex. */
bool judge_sees_circle(const struct request *request);
/* Outside the mutex: the request has waited for a second, and is written. What it brings is told by judge_tells. */
void judge_waits(void *request); /* a `struct request`: it is called aside */

/* Outside the mutex: what this thread's lines were answered, before the real call of the request; and any other news. */
void judge_tells(struct caller caller);
void judge_tells_news(void);

static inline void judge_looks(void)
{
    if (UNLIKELY(atomic_load_explicit(&judge_news, memory_order_relaxed) != 0))
        judge_tells_news();
}

#else

static inline bool judge_is_there(void)
{
    return false;
}
static inline bool judge_is_wanted(void)
{
    return false;
}
static inline void judge_lacks_memory(void)
{
}
static inline void judge_begins(void)
{
}
static inline void judge_forked(void)
{
}
static inline void judge_ends(void)
{
}
static inline void judge_made(const struct thread *thread, const struct lock *lock)
{
    (void)thread, (void)lock;
}
static inline void judge_asked(const struct thread *thread, uint32_t lock, uint8_t mode, uint32_t place)
{
    (void)thread, (void)lock, (void)mode, (void)place;
}
static inline void judge_got(const struct thread *thread, uint32_t lock)
{
    (void)thread, (void)lock;
}
static inline void judge_gave_up(const struct thread *thread, uint32_t lock)
{
    (void)thread, (void)lock;
}
static inline void judge_tried(const struct thread *thread, uint32_t lock, uint8_t mode, uint32_t place)
{
    (void)thread, (void)lock, (void)mode, (void)place;
}
static inline void judge_released(const struct thread *thread, uint32_t lock, uint8_t mode)
{
    (void)thread, (void)lock, (void)mode;
}
static inline void judge_missed(enum missed what)
{
    (void)what;
}
static inline bool judge_watches_waits(void)
{
    return false;
}
static inline bool judge_sees_circle(const struct request *request)
{
    return (void)request, false;
}
static inline void judge_waits(void *request)
{
    (void)request;
}
static inline void judge_tells(struct caller caller)
{
    (void)caller;
}
static inline void judge_looks(void)
{
}

#endif

#endif
