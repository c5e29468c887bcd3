/*
 * What is told of a report that was to be confirmed.
 */
#ifndef RECORD_CONFIRM_WORDS_H
#define RECORD_CONFIRM_WORDS_H

#include "confirm.h"
#include "steering_plan.h"

/* What threads did at a place, in all runs of a report. */
struct counted_place {
    unsigned long times;
    long thread;  /* that alone came there, in the last run in which one did; 0 for none */
    bool several; /* in some run several threads did */
};

struct counted {
    struct counted_place asked[PLAN_ORDERS];
    unsigned long met;  /* threads stood crosswise so often, and were let go */
    unsigned long late; /* runs that were ended since they took too long */
};

void counted_adds(struct counted *counted, const struct plan *plan);

/* Each is a text of one's own, without a newline. */
char *hung_text(const struct hang *hang, unsigned run);
char *unconfirmed_text(unsigned runs, const struct planned *planned, const struct counted *counted);

#endif
