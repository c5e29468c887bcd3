/* Reports (report_action.c), and where the library tells what it has to tell (log_file.c). */
#ifndef WITNESS_REPORT_ACTION_H
#define WITNESS_REPORT_ACTION_H

#include "libwitness.h"
#include "recorder.h"

/* Reads from the environment what is to be done at a report. Once, outside the mutex. */
void reports_begin(void);

/*
 * A report of what this thread has asked for, kept until judge_tells: room for a text of that length, and a zero after
 * it. NULL without memory. Under the mutex.
 */
char *report_kept(enum witness_kind kind, size_t length);
/* Where the lock that is held was acquired, and where the other one is asked for, of the last one that was kept. */
void report_is_at(uint32_t held, uint32_t asked);
/* The last one that was kept isn't told after all. Under the mutex. */
void report_dropped(void);
void reports_forked(void);

/* The status of exit=N, up to 255; -1 of another word. */
int status_in(const char *word);

/* A deadlock that happens (deadlock.c): what is to be done then; a thread's request, under the mutex; it was told. */
void deadlock_begins(void);
void deadlock_asked(const struct thread *thread, uint32_t place);
void deadlock_acts(void);

/* Tells lines, on standard error or where WITNESS_LOG says. No mutex is held. */
void tell_begins(void);
void tell(const char *text, size_t length);
/* A line of the library's own. */
void tell_line(const char *format, ...) __attribute__((format(printf, 1, 2)));

#endif
