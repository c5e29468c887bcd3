/*
 * What is reported is made to hang: the program runs again, steered by the plan of a report, until its threads wait for one
 * another. Then the report is true beyond doubt. One that isn't confirmed may be true all the same.
 */
#ifndef RECORD_CONFIRM_H
#define RECORD_CONFIRM_H

#include <stdbool.h>

#include "hang.h"
#include "settings.h"

struct planned;
struct run;

enum { CONFIRM_RUNS = 3, CONFIRM_SECONDS = 60, CONFIRM_NOISE_MS = 10 };

/* A report that is to be confirmed. */
struct subject {
    struct planned *planned; /* NULL where its places can't be found again */
    const char *const *type; /* the types of its locks */
    size_t types;
    const char *about; /* by what it is told */
    unsigned runs;     /* so many at most */
    struct confirmed *confirmed;
};

/* Whether this run's reports are to be confirmed. */
bool confirm_is_wanted(const struct settings *settings);

/* Whether steered runs are made at all, for reports of this run or of an earlier one. */
bool confirm_is_any(const struct settings *settings);

/* Makes the runs, in that sequence, and tells what comes of each. */
void confirm_subjects(struct run *run, struct subject *subject, size_t count);

/* The program has ended, and what was reported is told: confirms each report. */
void confirm_reports(struct run *run);

#endif
