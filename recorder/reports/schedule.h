/*
 * How threads could come to wait for one another in a report's circle of single locks: their steps in sequence, as
 * `witness forecast` finds them; or why it finds none.
 */
#ifndef RECORD_SCHEDULE_H
#define RECORD_SCHEDULE_H

#include <stdbool.h>
#include <stddef.h>

struct schedule_row {
    size_t column; /* of its thread, from 1 on: who does something first has the first one */
    long thread;   /* as the kernel counts; 0 where it isn't known, and of a further thread */
    long like;     /* of a further thread the one that did so in the run; else 0 */
    enum row_does { ROW_GETS, ROW_LETS_GO, ROW_WAITS } does;
    const char *lock; /* its name, a text of the notes */
    bool shared;
    const char *site;  /* a text of the notes; NULL where it isn't known */
    bool rests;        /* other threads had the lock in the run that hadn't by now, or the other way round */
    bool is_late;      /* of one that rests: it comes after such a one, and in the run before it */
    const char *other; /* and where that one got it, or asked for it; NULL where it isn't known */
};

struct schedule {
    enum schedule_result {
        SCHEDULE_UNANSWERED, /* the program that is asked doesn't know the word, or took too long */
        SCHEDULE_UNDECIDED,  /* it hasn't looked at all */
        SCHEDULE_HANGS,
        SCHEDULE_BARRED,  /* a lock that was let go on the way is another one's by then */
        SCHEDULE_GATE,    /* two have one lock when they ask */
        SCHEDULE_READERS, /* who asks as a reader doesn't wait for readers */
        SCHEDULE_APART,   /* the threads can't do so at once, whatever their locks */
        SCHEDULE_CUT,     /* a thread's way was too long to be kept */
        SCHEDULE_UNTOLD,  /* no line of the file tells of a thread's way */
    } result;
    struct schedule_row *row; /* of one that hangs; the last ones wait, one for each column */
    size_t rows, row_room;
    struct schedule_row bar; /* of one that is barred, the step that can't be done; of a gate, its lock */
    bool copies;             /* a further thread does what one of the run did */
    bool ends;               /* a request of it has a time limit */
    size_t rests_on;         /* how many of the rows rest */
    char *text;              /* what is told of it, without its heading; empty where nothing is */
};

/* The word of the result for machines. */
const char *schedule_word(const struct schedule *schedule);

/* What is told of it below the report, without a newline, as a text of one's own; an empty one where there is nothing. */
char *schedule_line(const struct schedule *schedule);

/* Makes the text, when all else is there. */
struct notes;
void schedule_tell(struct schedule *schedule, const struct notes *notes);

/* It was found, and the threads can't have been there at one time when they came so. */
void schedule_is_apart(struct schedule *schedule);

/* With all that it has; NULL is nothing. */
void schedule_end(struct schedule *schedule);

#endif
