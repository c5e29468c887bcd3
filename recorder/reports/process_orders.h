/*
 * The orders of a process's trace: which type was asked for while which other was held, and what goes against that.
 */
#ifndef RECORD_PROCESS_ORDERS_H
#define RECORD_PROCESS_ORDERS_H

#include <stdbool.h>
#include <stddef.h>

struct process;

/* An order of two types, or a request that goes against one. All texts are its own. */
struct order {
    char *from, *to;
    char *site;       /* where it was first asked for; NULL where that isn't known */
    bool is_reversal; /* it was reported: it goes against an order, or asks for a second lock of the type */
    bool is_broken;   /* a reversal goes against it */
};

struct order_list {
    struct order *order; /* those that were adopted, then what was reported */
    size_t count, room;
};

/* Those that are known of the process. A new list is all zeroes. */
void orders_read(const struct process *process, struct order_list *orders);
void orders_end(struct order_list *orders);

#endif
