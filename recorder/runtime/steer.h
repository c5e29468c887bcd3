/*
 * Steered runs: at the places of a plan (plan.h) threads pause, so that they come to stand crosswise and really wait for one
 * another. A pause is an unlucky schedule and nothing else: each call is still made once, and nothing of it changes.
 */
#ifndef STEER_H
#define STEER_H

#include "recorder.h"

#pragma GCC visibility push(hidden)

extern bool steers; /* there is a plan */

/* Reads the plan that the environment names, if any, before the first place is met. Whether each request may pause by it. */
bool steer_begins(void);

/* A new place gets its detour where the plan has it. Under the mutex, before anybody sees the place. */
void steer_place(struct place *place);

/*
 * Before the real call of a request, outside the mutex: the thread may pause, but for a request with a time limit, which is
 * counted alone. Whether the request is to be watched: it holds something, so it may come to wait in a circle.
 */
bool steer_asks(const struct request *request);

/* It has waited for long, and is written: whom its lock names as its holder is written, too. Outside the mutex. */
void steer_waits(const struct request *request);

/*
 * The thread begins to wait for a condition, and counts as standing where the plan has the place. The wait has ended with
 * the mutex: true where it is to be given back for a pause; the pause; and the wait is over, or was left.
 */
void steer_wait_begins(const struct request *request);
bool steer_wait_pauses(void);
void steer_pauses_after_wait(const struct request *request);
void steer_wait_ends(void);

/* The thread has left its call by a jump. Under the mutex. */
void steer_left(const struct thread *thread);

/* A process begins, or a child of fork: no thread stands anywhere. It is shown to who looks on. */
void steer_forked(void);

#pragma GCC visibility pop

#endif
