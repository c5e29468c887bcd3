/*
 * Judges orders of many runs, as many as there are: `witness orders judge` does, which is proved (docs/PROOFS.md).
 */
#ifndef RECORD_ORDERS_VERDICT_H
#define RECORD_ORDERS_VERDICT_H

#include "report.h"
#include "run_orders.h"

struct judgement {
    struct reports reports; /* a report for each circle */
    struct notes notes;
    size_t *closing;      /* of each report the number of the order that closes its circle */
    size_t against, room; /* orders that close a circle with those before them */
    char *failed;         /* why it isn't judged; NULL where it is: then all other orders together have no circle */
};

/*
 * Known orders are judged before new ones, and those of more runs before others: so the rare one comes to be against
 * the others. Ends by judgement_end.
 */
void run_orders_judge(struct run_orders *orders, const char *witness, struct judgement *judgement);
void judgement_end(struct judgement *judgement);

#endif
