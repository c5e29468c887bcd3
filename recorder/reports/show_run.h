/*
 * What the parts of `show` share: what is known of the run so far, and the process that is being told of.
 */
#ifndef RECORD_SHOW_RUN_H
#define RECORD_SHOW_RUN_H

#include <stdbool.h>
#include <stddef.h>

#include "alarms.h"
#include "notes.h"
#include "output.h"
#include "replay_answers.h"
#include "report.h"
#include "resolve.h"
#include "run_reports.h"
#include "settings.h"
#include "show.h"
#include "state.h"
#include "status_file.h"
#include "steered_run.h"
#include "stream_file.h"

/* A file of a process in the recording. */
struct recording {
    char *name; /* PROCESS.NUMBER */
    long process;
    bool goes_on;
};

struct run {
    struct settings settings;
    const struct ending *ending;
    const char *work, *records;
    long process; /* the program's */
    struct output output;
    bool is_telling; /* the log is open, if there is one */
    struct resolver *resolver;
    struct answers answers;
    struct status status;
    struct recording *recording;
    size_t recordings, recording_room;
    long *going; /* processes that go on, when the program has ended */
    size_t goings, going_room;
    bool left;        /* something goes on */
    bool has_started; /* the program has loaded the recorder */
    bool is_kept;     /* the recording stays */

    size_t shown; /* processes that were told of */
    unsigned long reports, circles, errors;
    struct alarms_wanted alarms_wanted;
    int deadlock_status;          /* of `record`, since a process was ended; 0 where none was */
    unsigned long alarms;         /* the reports that count for the status */
    unsigned long ignored, known; /* what isn't told: by the user's file, and as right in a library */
    unsigned long confirmed;      /* those that hung */
    bool reported;                /* something was, of any kind */
    bool illegal;                 /* a trace isn't one of locks that were free when they were taken */
    bool partly;                  /* not all was recorded */
    bool unknown;                 /* of a process that was recorded nothing is known */
    char *unclean;                /* why the run isn't clean, NULL where it is */
    struct learning *learning;    /* the orders of its processes (learn.h); NULL where none were taken */
    bool contradicted;            /* one of them is against those of other runs */
    bool has_new;                 /* one of them is new */
    const char **blind;           /* objects in which stacks end */
    size_t blinds, blind_room;
    const char **library; /* those whose right orders were ignored */
    size_t libraries, library_room;
    unsigned long *matched; /* lines of the ignore file that name types */
    size_t matches, matched_room;
    struct told *told; /* reports that were told (equal_reports.c) */
    size_t tolds, told_room;
    struct followed *followed; /* streams that were read while the program ran (follow.c) */
    size_t followeds, followed_room;
    long long follow_next;       /* when they are looked at again, in microseconds */
    struct run_reports gathered; /* for files that were asked for, and for reports to be confirmed */
    struct watched *watched;     /* of a steered run (steered_run.h); NULL of any other */
};

struct process {
    struct run *run;
    const struct recording *recording;
    const char *name; /* its program's */
    struct stream stream;
    struct notes notes;
    struct reports reports;
    struct reports ignored; /* what isn't told: the user doesn't want it, or it is right in a library */
    struct state state;
    int status;          /* of the verifier, as a shell says it */
    bool resolved;       /* else its lines couldn't be made */
    bool is_followed;    /* it goes on, and only its reports are wanted */
    bool is_last_look;   /* and it isn't looked at again meanwhile */
    bool has_lent_notes; /* the notes are those of what goes on */
};

/* Why nothing is known of a program, where nothing else is known to be the cause. */
extern const char no_recorder[];

/* The recording stays when `record` ends. */
void keep_recording(struct run *run);

/* What is told from here on is of that process, or with 0 of the whole run. */
void run_has_word(struct run *run, long speaker);

/* Finds the files of processes that have lines by now; and forgets them. */
void find_recordings(struct run *run);
void forget_recordings(struct run *run);

#endif
