/*
 * The grades of a process's reports. `witness findings`, which told them, is asked for them, and what it answers is told in
 * threads, locks and places. Nothing is decided here.
 */
#ifndef RECORD_GRADES_H
#define RECORD_GRADES_H

#include "json_reader.h"
#include "report.h"

/* Which grades are asked for. */
struct grades_wanted {
    const struct notes *notes; /* of the process, with what is told of single locks */
    bool of_ignored;           /* of reports that aren't to be told, too */
    int patience;              /* how many milliseconds an answer may take; 0: none is asked for */
};

/* The lines that ask for the grades of the reports in that text. How many they are. */
size_t grades_ask(FILE *to, const struct grades_wanted *wanted, const char *told, size_t length);

/* Takes in what was told of one. */
void grade_read(struct reports *reports, const struct value *finding);

/*
 * Once: what wasn't graded isn't known, since nothing was asked where there is no program to FORECAST. Then each report has its
 * schedule, too (schedules.h). BRIEFLY: two seconds, since others wait.
 */
void grade_reports(struct reports *reports, const char *forecaster, bool briefly);

#endif
