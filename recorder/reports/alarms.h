/*
 * How much a report is to be feared: whether single locks of its types were taken both ways, by which threads, and what
 * keeps these apart. `witness findings` says it (grades.h). Here are the words for it, and which of them count for the
 * status.
 */
#ifndef RECORD_ALARMS_H
#define RECORD_ALARMS_H

#include <stdbool.h>
#include <stddef.h>

enum { ALARM_THREADS = 16 };

struct alarm {
    enum grade {
        GRADE_NONE, /* the file tells of no single locks, or it is no report of an order */
        GRADE_UNKNOWN,
        GRADE_TYPES,      /* no single locks were taken both ways */
        GRADE_ONE_THREAD, /* single locks were, but two of the orders by one thread alone, which can't wait in both */
        GRADE_THREADS,    /* single locks were, each order by a thread of its own, as far as it is known */
    } grade;
    enum unknown {
        UNKNOWN_MISSING,    /* not all pairs of such locks are there */
        UNKNOWN_UNASKED,    /* the program that grades isn't built */
        UNKNOWN_UNANSWERED, /* it doesn't know the word, or took too long */
    } unknown;
    bool of_one_type; /* the report is of two locks of one type */
    /* The threads of a circle of single locks, and what keeps it from closing; nothing does where none of these is set. */
    long thread[ALARM_THREADS]; /* each once */
    size_t threads;
    size_t others;    /* threads of it of which nothing is known, or that have no room there */
    size_t steps;     /* of the circle of types, or of the locks where that has more */
    bool is_smaller;  /* it doesn't go over all types of the report */
    long twice;       /* a thread that took two of the orders; 0 for none */
    const char *gate; /* a lock that two of them held each time; NULL where there is none */
    bool readers;     /* one waits for readers alone, as a reader */
    bool timed;       /* one was asked for with a time limit */
    enum apart {
        NOT_APART,
        APART_IN_TIME,      /* one thread had ended, or wasn't made yet, when the other did so */
        APART_AT_FIRST,     /* all orders were made when there was no other thread, and not again */
        APART_ONE_AT_FIRST, /* one of them was, whoever made the others */
        APART_BY_WAITS,     /* each asks as a wait for a condition ends, so it had its lock when that began */
        APART_BY_LOCK,      /* one asks so, and kept the lock under which the other took its own */
    } apart;
    /* Of two locks of one type: where the other orders of the circle were taken. Texts of the notes, each once. */
    const char *elsewhere[ALARM_THREADS];
    size_t elsewheres;
    bool has_own; /* the report's order is one of them */
};

/* The less, the more it is to be feared. */
int alarm_mildness(const struct alarm *alarm);

/* Whether something keeps the orders apart. */
bool alarm_has_word(const struct alarm *alarm);

/* What is said of it below the report, without a newline, as a text of one's own; an empty one where there is nothing. */
char *alarm_text(const struct alarm *alarm);

/* What counts for the status: the words of --alarms. */
struct alarms_wanted {
    enum grade least; /* GRADE_NONE: every report counts */
    bool not_gated, not_readers, not_timed, not_apart;
    bool confirmed; /* those alone that hung in a steered run */
};

/* What counts where nothing is asked for: reports of single locks that were taken both ways. */
extern const struct alarms_wanted alarms_usual;

/* False where one of the words, which are parted by commas, isn't known. */
bool alarms_words(const char *words, struct alarms_wanted *wanted);
/* Of a report of an order. What isn't known counts. */
bool alarm_counts(const struct alarms_wanted *wanted, const struct alarm *alarm);

#endif
