/*
 * What a run has shown, for json.h, which writes it.
 */
#ifndef RECORD_RUN_REPORTS_H
#define RECORD_RUN_REPORTS_H

#include <stdbool.h>
#include <stddef.h>
#include <time.h>

#include "alarms.h"
#include "hang.h"
#include "notes.h"
#include "process_orders.h"
#include "report.h"

/* A process that has a trace. */
struct found {
    char *program;
    long process; /* 0 where it stands for many runs */
    struct notes notes;
    struct reports reports;
    struct reports ignored; /* what isn't told: by the user's ignore file, or as right in a library */
    struct order_list orders;
    bool has_orders; /* they are all known: its recording was judged to its end */
    char *picture;   /* of these, as SVG; NULL where none is drawn */
};

/* A report, told once for all processes that have it. */
struct run_report {
    const struct found *found; /* the first of them */
    const struct report *report;
    bool is_ignored;
    long *process; /* their numbers */
    size_t processes, room;
    char fingerprint[17];            /* the same where lines have moved, and after another run */
    struct alarm alarm;              /* how much it is to be feared: the worst of what the processes say */
    char *single;                    /* what is said of that; an empty text where there is nothing */
    const struct schedule *schedule; /* of that process; NULL where there is none */
    bool counts;                     /* for the status of `record`, by --alarms */
    struct confirmed *confirmed;     /* what came of steered runs; NULL where none was to be made */
    char *picture;                   /* of its orders, as SVG; NULL where none is drawn */
};

struct run_reports {
    const char *command;         /* that tells it; NULL is `record` */
    const char *version;         /* of `record`; NULL where that isn't known */
    const char *kit;             /* by which the verifier is proved; NULL where that isn't known */
    const char *words;           /* the program with its words, as it was run; NULL where that isn't known */
    const char *program;         /* its name */
    const char *directory;       /* where names of source files begin that aren't absolute */
    const char *ignore;          /* the user's ignore file; NULL where there is none */
    struct alarms_wanted alarms; /* which reports count */
    time_t built;                /* when the program was; 0 where that isn't known */
    time_t ended;                /* when the recording was told of */
    bool has_failed;             /* of a process that was recorded nothing is known */
    struct found *found;
    size_t count, found_room;
    char **told; /* what was told besides the reports: lines without `record: ` */
    size_t tolds, told_room;
    char *summary;    /* the last of them */
    bool is_gathered; /* the list is there */
    struct run_report *report;
    size_t reports, report_room;
};

/* A further process, which the caller fills. */
struct found *run_reports_add(struct run_reports *gathered, const char *program, long process);

/* A line that was told, of that process; 0 where it is of the whole run. What it begins with, `record: `, is left out. */
void run_reports_tell(struct run_reports *gathered, long process, const char *line);

/* When all are there: makes the list of reports, equal ones as one, once. Those that are ignored come last. */
void run_reports_gather(struct run_reports *gathered);

/* The threads that are known of the process, each once: a list of one's own. */
const struct event **found_threads(const struct found *found, size_t *count);

void run_reports_end(struct run_reports *gathered);

#endif
