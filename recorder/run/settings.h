/*
 * What was asked of `record`. An empty word or NULL is: nothing was asked.
 */
#ifndef RECORD_SETTINGS_H
#define RECORD_SETTINGS_H

#include <stdbool.h>
#include <time.h>

struct settings {
    const char *keep;   /* -o FILE */
    const char *ignore; /* --ignore FILE */
    const char *right;  /* --ignore FILE, of libraries; `-` for none, NULL for the lists that come with `record` */
    const char *right_usually; /* where these are; NULL where they aren't there */
    const char *log;           /* --log-file FILE */
    const char *graph;         /* --graph FILE, which goes */
    const char *html;          /* --html FILE */
    const char *sarif;         /* --sarif FILE */
    const char *json;          /* --json FILE */
    const char *learn;         /* --learn FILE */
    const char *known;         /* --known FILE */
    const char *run_name;      /* orders --run-name NAME: what the run is called in a file of orders */
    const char *program_name;  /* orders --program-name NAME: what the program's own object is called there */
    const char *witness;       /* the program that replays */
    const char *grader;        /* the one that grades; NULL where it doesn't stand built */
    const char *program;       /* the program's name, as it is told */
    const char *words;         /* the program with its words, as it was named */
    const char *misfit;        /* why the program can't be recorded, where that is known */
    const char *little;        /* why there was little room */
    const char *skip;          /* --skip: patterns, by colons */
    const char *directory;     /* left out at the head of the names of source files */
    time_t built;              /* when the program was last changed, 0 where that isn't known */
    int error;                 /* --error-exitcode, 0 where there is none */
    int new_error;             /* orders --new-exitcode, 0 where there is none */
    int frames;                /* RECORD_FRAMES, --brief, --verbose: how many are shown of a stack; 1 shows none */
    const char *on_deadlock;   /* --on-deadlock: tell, kill, exit=N; NULL is tell */
    const char *alarms;        /* --alarms: which reports count for the status */
    int confirm;               /* --confirm: so many steered runs for a report; 0 where it isn't asked for */
    int confirm_seconds;       /* --confirm=time=SECONDS: for all of them */
    const char *confirm_from;  /* --confirm=from=FILE: the reports of that file of --json */
    const char *before;        /* --before, which goes: a command before each steered run */
    int noise;                 /* --confirm=noise: the longest pause of a request, in milliseconds; 0 for none */
    const struct again *again; /* how the program is begun again (steered_run.h) */
    const char *colour;        /* --color; NULL is auto */
    bool ignore_lines;         /* --gen-suppressions: below each report stands the line that would have it ignored */
    bool judge;                /* --judge, which goes: whether the trace is one of locks is asked */
    bool no_errors;            /* --alarms no-errors: errors in the use of locks aren't told */
    bool in_debugger;          /* the program's process is a debugger's child */
    bool quiet;                /* nothing is told before the program has ended */
    bool progress;             /* somebody sits at a terminal */
    bool shows_children;       /* -v: what is run is told, and the recording is kept */
    bool one_by_one;           /* the verifier is begun anew for each process */
};

/* Whether something was asked for by that word of the settings. */
static inline bool is_asked(const char *word)
{
    return word && *word;
}

#endif
