/*
 * A program that hung in a steered run, and what is told of a report that was to be confirmed by that.
 */
#ifndef RECORD_HANG_H
#define RECORD_HANG_H

#include <stdbool.h>
#include <stddef.h>

/* A thread that hangs: it has taken a lock that another one of the circle waits for, and waits for one itself. */
struct hung_thread {
    long thread;          /* as the kernel counts; 0 where it isn't known */
    char *took, *took_at; /* NULL where that isn't known */
    char *wants, *wants_at;
    char *type; /* of the lock that it wants */
};

/* Threads that wait for one another. All texts are its own. */
struct hang {
    struct hung_thread *thread;
    size_t threads, room;
    double seconds; /* after the process began */
    /* Each lock names the next thread as its holder, or a reader holds it and no lock was ever handed over. */
    bool is_certain;
};

/* What came of a report. */
struct confirmed {
    unsigned runs;    /* that were made for it */
    unsigned run;     /* the one in which it hung beyond doubt; 0 for none */
    struct hang hang; /* then, or what seemed to be one */
    char *text;       /* what is told of it */
};

/* Whether it hung beyond doubt. NULL is nothing. */
bool is_confirmed(const struct confirmed *confirmed);

void hang_end(struct hang *hang);
void confirmed_end(struct confirmed *confirmed); /* NULL is nothing */

#endif
