/*
 * What a program says to libwitness, and hears of it. For C and C++, with GCC or Clang. The library watches a program
 * that is linked to it (`cc .. -lwitness`), or into which it is loaded by LD_PRELOAD; in any other each call here is a
 * test of a pointer that is NULL, and is answered 0. witness.h beside this header is for locks that aren't pthread's.
 *
 * In a program that is linked to it the library sleeps: every call of a lock is passed on, and nothing is kept. It
 * wakes by WITNESS=1 in the environment, or by witness_start. All else is in the manual page witness(3).
 */
#ifndef LIBWITNESS_H
#define LIBWITNESS_H

#include "witness.h"

#ifdef __cplusplus
extern "C" {
#endif

#ifdef LIBWITNESS /* the library's own sources */
#define WITNESS_WEAK
#else
#define WITNESS_WEAK __attribute__((weak))
#endif

/* What a report is about. */
enum witness_kind {
    WITNESS_REVERSAL = 1, /* two locks in opposite orders */
    WITNESS_DUPLICATE,    /* two locks of one type */
    WITNESS_ASSERTION,    /* witness_assert, of what isn't so */
    WITNESS_HELD,         /* witness_warn, where locks are held */
    WITNESS_DEADLOCK      /* threads that wait for one another */
};

/* What witness_assert says of a lock: one of the first four, and one of the last two with it. */
enum {
    WITNESS_UNLOCKED = 1,
    WITNESS_LOCKED = 2,
    WITNESS_SLOCKED = 4, /* shared */
    WITNESS_XLOCKED = 8, /* exclusively */
    WITNESS_RECURSED = 16,
    WITNESS_NOTRECURSED = 32
};

/* How much is watched. From off there is no way back. */
enum { WITNESS_WATCH_OFF = -1, WITNESS_WATCH_QUIET = 0, WITNESS_WATCH_ON = 1 };

struct witness_report {
    enum witness_kind kind;
    const char *text;  /* lines, as `witness replay` tells them */
    const char *held;  /* where the lock that is held was taken, as the text has it; empty but of the first two kinds */
    const char *asked; /* and where the other one is asked for */
};

/*
 * Wakes the library, from main's first line, say: what was locked before isn't known to it. 1 where it is awake after
 * that; 0 where another recorder has the process, or memory was refused.
 */
int witness_start(void) WITNESS_WEAK;

/*
 * FUNCTION is called at each report, with DATA, by the thread that asks for the lock, before it asks. The library's
 * mutex isn't held, and no lock that the function takes is judged. It may leave by a jump: then the lock isn't asked
 * for. NULL calls nothing any more. The report and its texts are gone when the function returns.
 */
void witness_on_report(void (*function)(const struct witness_report *report, void *data), void *data) WITNESS_WEAK;

/* Called by the library at each report, after the function above: a place for a debugger's breakpoint. */
void witness_reported(const struct witness_report *report) WITNESS_WEAK;

/*
 * Says how this thread holds the lock. 1 where that is so, and where the library sleeps or isn't there; else that is a
 * report, and the answer is 0.
 */
int witness_assert(const volatile void *lock, int how) WITNESS_WEAK;

/*
 * Says that this thread should hold no lock here: before a wait that isn't one for a lock, a callback, a fork. How many
 * it holds; where that isn't 0 it is a report, which begins with the text.
 */
int witness_warn(const char *text) WITNESS_WEAK;

/*
 * The first lock's type is before the second one's from here on. Locks may be named that aren't made yet: then it is so
 * from when both are used. 0 where it can't be, which is told: the contrary is known, both are of one type, or there is
 * no room.
 */
int witness_define_order(const volatile void *first, const volatile void *second) WITNESS_WEAK;

/* So much is watched from here on. 0 where that can't be. */
int witness_watch(int level) WITNESS_WEAK;

/* Writes into the file which locks are held now, and by whom, and the orders that are known. */
void witness_show(int file) WITNESS_WEAK;

#ifdef __cplusplus
}
#endif

#ifndef LIBWITNESS
#define witness_start() (witness_start ? witness_start() : 0)
#define witness_on_report(function, data) (witness_on_report ? witness_on_report((function), (data)) : (void)0)
#define witness_assert(lock, how) (witness_assert ? witness_assert((lock), (how)) : 1)
#define witness_warn(text) (witness_warn ? witness_warn(text) : 0)
#define witness_define_order(first, second) (witness_define_order ? witness_define_order((first), (second)) : 0)
#define witness_watch(level) (witness_watch ? witness_watch(level) : 0)
#define witness_show(file) (witness_show ? witness_show(file) : (void)0)
#endif

#endif
