/*
 * Follows the streams while the program runs: a report is told as soon as its request stands in a stream.
 */
#ifndef RECORD_FOLLOW_H
#define RECORD_FOLLOW_H

#include "show_run.h"

/*
 * Tells what is new. It takes at most a fifth of a processor: where a look takes long, the next one waits. A stream
 * that has grown large is left until the program has ended.
 */
void follow(struct run *run);

/* The program has ended: the verifiers that go on end with what there is. */
void follow_stops(struct run *run);

/* The verifier that goes on for the process, or begins to where it is followed; NULL where there is none. */
struct live_verdict;
struct live_verdict *follow_verdict(struct run *run, const struct process *process);

/* Keeps that the report was told, and what was said of its single locks: texts of one's own. */
void follow_keeps(struct run *run, const char *recording, char *report, char *alarm);

/* What was said of the single locks of the report of that text; NULL where it wasn't told. */
const char *follow_alarm(const struct run *run, const char *recording, const char *report);

void follow_end(struct run *run);

#endif
