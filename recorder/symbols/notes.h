/*
 * What the resolving of a recorder's file leaves beside the lines for the verifier. All texts are the notes' own, and end with them.
 */
#ifndef RECORD_NOTES_H
#define RECORD_NOTES_H

#include <stdbool.h>
#include <stddef.h>
#include <stdint.h>

#include "ignored_types.h"
#include "lasting_names.h"
#include "lock_pairs.h"
#include "map.h"
#include "single.h"

/* A function and its FILE:LINE, of a stack. */
struct frame {
    const char *function; /* NULL where it isn't known */
    const char *site;
};

/* Where a call is in an object's file; or the file and line of a place by name. */
struct code_place {
    const char *object;   /* NULL of none */
    const char *build_id; /* NULL where the file has none */
    uint64_t offset;
    bool is_named;
};

/* A place as it is found again in a later run. Of one that stands for two the library's function, and the rest. */
struct call {
    struct code_place code, rest;
};
enum { CALLS_MOST = 4 };

/* A stack, innermost frame first; and the calls that it comes from, without what was inlined. */
struct frames {
    struct frame *frame;
    size_t count;
    struct call call[CALLS_MOST];
    size_t calls;
};

/* Where a lock was asked for, or tried: a place has a number for each stack and thread. */
struct spot {
    const char *site;
    const char *told; /* what a report's text has in its place; NULL where that is the site */
    uint32_t frames;  /* a number of notes.frames, from 1 on */
    long thread;      /* as the kernel counts threads; 0 where it isn't known */
    unsigned long at; /* in milliseconds, when it was written first */
};

/* What was read beside calls, in the order of the file. */
struct event {
    enum event_kind {
        EVENT_THREAD,  /* from here on the seat is that thread's */
        EVENT_AGAIN,   /* the seat waited for a lock that it held */
        EVENT_FOREIGN, /* the lock was released by a thread that didn't hold it */
        EVENT_ANSWER,  /* it was asked which mutexes are held: up to the next answer follow */
        EVENT_HOLDER,  /* those that are */
        EVENT_OWNER,   /* the seat waits for the lock, which itself names that thread as its holder */
        EVENT_ERROR,   /* in the use of the lock: `what` says which */
    } kind;
    unsigned seat, lock; /* the lock's number in the stream */
    long thread;         /* of a thread or a holder, as the kernel counts */
    const char *what;    /* of an error, the word of format.h */
    const char *name;    /* of the thread, or of the lock; NULL where there is none */
    const char *maker;   /* the function that made the thread; NULL where that isn't known */
    const char *site;    /* where; NULL where that isn't known */
    /* Of a thread that waited for itself: another one has released the lock since. Of an owner: it is of an earlier wait. */
    bool is_over;
};

/* What a type is called besides. */
struct alias {
    const char *type;      /* as it is told */
    const char *by_lines;  /* by variables and source lines */
    const char *functions; /* the functions of its places; NULL where its name is that of a variable */
    const char *source;    /* where it comes from: another type comes from elsewhere */
    bool is_member;        /* it is all locks of a member: its places may be others in each run */
    struct lasting lasting;
};

/* The single lock of a number in the stream. */
struct lock_name {
    const char *name, *type;
    const char *class;          /* mtx, rw */
    struct code_place variable; /* where it stands, of one that is a variable with the type's name; else no object */
};

struct notes {
    bool has_callers;  /* places have their threads and stacks; else their sites alone */
    struct spot *spot; /* spot[N - 1] is that of number N */
    size_t spots, spot_room;
    struct frames *frames;
    size_t framed, frames_room;
    struct event *event;
    size_t events, event_room;
    struct alias *alias; /* one for each type of the trace */
    size_t aliases, alias_room;
    unsigned long *matched; /* lines of the ignore file that named types of this trace, each once */
    size_t matches, matched_room;
    const char **blind; /* objects in which stacks end */
    size_t blinds, blind_room;
    const char **library; /* those whose right orders were ignored (right_orders.h), each once */
    size_t libraries, library_room;
    struct lock_name *lock; /* lock[N - 1] is that of number N */
    size_t locks, lock_room;
    struct single single;         /* the pairs of single locks */
    struct ignored_types ignored; /* what of its types isn't told */
    struct lock_pairs pairs;      /* of single locks, where orders are learnt or reports are to be confirmed */
    unsigned long pending;        /* requests that never ended */
    bool has_shared;              /* a lock may be taken by other processes, too */
    struct texts *texts;          /* what the texts stand in */
    struct texts *derived;        /* those of aliases and of the types of single locks */
};

void notes_end(struct notes *notes);

/* What the type is called that the verifier tells by its number. */
const char *notes_type(const struct notes *notes, const char *number);
/* The lock of that number in the trace; one without names where there is none. */
const struct lock_name *notes_lock(const struct notes *notes, unsigned number);
/* The type of the lock of that name; the name where there is no such lock. */
const char *notes_lock_type(const struct notes *notes, const char *name);
/* The thread that has the seat when so many events have come; NULL where none has had it. */
const struct event *notes_thread(const struct notes *notes, unsigned seat, size_t events);

/* The variable that all locks of the type are; one without an object where there is none, or several. */
struct code_place notes_variable(const struct notes *notes, const char *type);
/* What the type of that name is called besides; NULL where there is no such type. */
const struct alias *notes_alias(const struct notes *notes, const char *type);
/* The place of that number; NULL where there is none. */
const struct spot *notes_spot(const struct notes *notes, size_t number);
/* Its site, FILE:LINE or as in ../code_words.h. */
const char *notes_site(const struct notes *notes, size_t number);
/* Its frames; NULL where they aren't known. */
const struct frames *notes_frames(const struct notes *notes, size_t number);

#endif
