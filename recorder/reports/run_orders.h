/*
 * Lock orders of many runs: pairs of types, of which the second was asked for while the first was held. The types have
 * names that last (types.h), in full.
 */
#ifndef RECORD_RUN_ORDERS_H
#define RECORD_RUN_ORDERS_H

#include <stdbool.h>
#include <stddef.h>

#include "map.h"

struct texts;

struct order_type {
    const char *class; /* mtx, rw or sx */
    const char *name;
};

struct run_order {
    const char *key;    /* CLASS "TYPE" > CLASS "TYPE" */
    const char *origin; /* where it was first met, REQUEST while HELD, RUN; an empty text where that isn't told */
    struct order_type from, to;
    struct here {
        const char *place; /* as the origin has it, with the line */
        const char *site;  /* FILE:LINE, or OBJECT+OFFSET(FUNCTION):0 */
    } asked, held;         /* where a run that ended just now did so; else both are NULL */
    unsigned long runs;    /* in so many it was met */
    unsigned long last;    /* the number of the last of them, from 1 on; 0 where that isn't known */
    size_t asked_as;       /* its index among those that the run that ended just now met, as they were asked for */
    bool is_met;           /* the run that ended just now met it */
    bool is_new;           /* no file has it */
    bool is_ignored;       /* the user allows either order of its types: it isn't judged */
    bool is_against;       /* it was judged: it closes a circle with orders that come before it */
    bool is_told;          /* a report of the run itself says so */
};

/* A new struct is all zeroes. */
struct run_orders {
    struct run_order *order;
    size_t count, room;
    unsigned long runs;        /* so many were counted */
    bool has_failed;           /* what reads the files couldn't: none of them is to blame */
    struct map types, numbers; /* the types' texts; the orders' numbers by their keys, from 1 on */
    struct texts *texts;
};

/*
 * The order that a line says, CLASS "TYPE" > CLASS "TYPE" and its origin; it is added where it isn't there. It holds until
 * the next one is added. NULL where `witness orders` wouldn't read the line: it may be too long, and names have any bytes.
 */
struct run_order *run_orders_add(struct run_orders *orders, const char *line);

/* The order of that key, NULL where it isn't there. */
struct run_order *run_orders_find(const struct run_orders *orders, const char *key);

/* The order was met by the run that ended just now, there. */
void run_orders_note_here(struct run_orders *orders, struct run_order *order, struct here asked, struct here held);

/* Allows either order of two types, wherever they are there, as the file of --ignore says. The names may lack their objects. */
void run_orders_ignore(struct run_orders *orders, const char *path);

void run_orders_end(struct run_orders *orders);

#endif
