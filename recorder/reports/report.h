/*
 * What is reported of a process, with all that is known of it: the verifier's reports, and the circles of threads that
 * wait. From this it is told as a text.
 */
#ifndef RECORD_REPORT_H
#define RECORD_REPORT_H

#include <stdbool.h>
#include <stddef.h>
#include <stdio.h>

#include "alarms.h"
#include "notes.h"
#include "schedule.h"

/* A line of a report. Texts that a kind of line hasn't are NULL. */
struct report_line {
    enum line_kind {
        LINE_PLAIN, /* it has no place that is known */
        LINE_LOCK,  /* a lock that was held, or asked for: ` 1st "NAME" (TYPE, CLASS) @ SITE` */
        LINE_STEP,  /* of the established order: ` "TYPE" -> "OTHER" @ SITE` */
        LINE_WAITS, /* of a circle: a seat waits for the lock of that name, which seat `next` holds */
        LINE_HOLDS, /* and a lock that a seat of it holds */
    } kind;
    char *text;                /* as it is told: its place by place_words.h */
    char *words;               /* that without the place; NULL where there is none */
    char *heading;             /* of a place: these, and of a lock without its type */
    char *name, *type, *class; /* of a lock; a step has the types that are in order as its type and other */
    char *other;
    const char *site;            /* FILE:LINE, or as in ../code_words.h */
    char *own_site;              /* where it stands, if not in the notes */
    bool is_spot;                /* the notes know of its thread and its frames */
    const struct frames *frames; /* of the thread that was there; NULL where they aren't known */
    long thread;                 /* as the kernel counts; 0 where it isn't known */
    const struct event *known;   /* its name and who made it; NULL where they aren't known */
    unsigned seat, next;
    bool is_behind_readers; /* the lock that the seat waits for is held by a reader, whom no lock names */
    size_t spot;            /* the place's number in the notes; 0 for none */
    unsigned long at;       /* in milliseconds, when it was there first */
    size_t held_spot;       /* of a step: where its first lock was taken; 0 where that isn't known */
};

struct report {
    enum report_kind {
        REPORT_REVERSAL,
        REPORT_DUPLICATE,
        REPORT_CIRCLE, /* threads wait for one another */
        REPORT_SELF,   /* a thread waits for itself */
        REPORT_ERROR,  /* in the use of a lock */
        REPORT_OTHER,  /* a bad line, or that the verifier is exhausted */
    } kind;
    struct report_line *line; /* the first says what it is */
    size_t lines, room;
    long long told_at;  /* the verifier told it at that line */
    size_t first, last; /* the numbers of the lines of the two locks whose types are at odds; 0 where there is none */
    bool is_over;       /* the thread that waited for itself went on */
    char *ignore_line;  /* the line of an ignore file that would have it ignored; NULL where none would */
    enum ignored_cause ignored; /* why it isn't told */
    struct alarm alarm;         /* how much it is to be feared, once the reports are graded (grades.h) */
    struct fact *fact; /* of the circle of single locks that its grade speaks of, each of the thread before the next */
    size_t facts;
    struct schedule *schedule; /* how its threads come to hang; NULL where no single locks were taken both ways */
};

/* The texts and numbers point into the notes. */
struct reports {
    const struct notes *notes;
    struct report *report;
    size_t count, room;
    bool are_graded;
};

/* Adds a report, and lines of the last one: words alone; a lock; a step of the established order. */
struct report *reports_add(struct reports *reports, enum report_kind kind, const char *head);
void reports_add_words(struct reports *reports, const char *words);
void reports_add_lock(struct reports *reports, const struct lock_name *lock, size_t spot);
void reports_add_step(struct reports *reports, const char *from, const char *into, size_t spot);
/* Another line of it; its place is that site, or where it is NULL the one of that number in the notes. */
struct report_line *reports_add_line(struct reports *reports, enum line_kind kind, const char *heading, size_t spot,
    const char *site);

/* Gives a reversal or a duplicate, which has all its locks, the line that would have it ignored. */
void report_names_ignore_line(struct report *report, const struct notes *notes);

/* How many there are of the verifier's, and how many circles. */
unsigned long reports_counted(const struct reports *reports);
unsigned long reports_circles(const struct reports *reports);

/* Whether a reversal goes against the order from type to type. */
bool reports_break(const struct reports *reports, const char *from, const char *into);

void reports_end(struct reports *reports);

/* Its lines as they are told, as a text of one's own. */
char *report_lines(const struct report *report);

/* The lock of that name as it is told at the place: a text of one's own, with quotes. */
char *lock_told_at(const struct notes *notes, const char *name, const char *site);

/* By what the report is known, as a text of one's own: `"NAME" and "NAME" @ FILE:LINE`, of its last two locks. */
char *report_about(const struct report *report);

#endif
