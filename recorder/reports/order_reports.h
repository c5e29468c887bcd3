/*
 * Reports of orders that are against others, with the orders' origins for places.
 */
#ifndef RECORD_ORDER_REPORTS_H
#define RECORD_ORDER_REPORTS_H

#include "report.h"
#include "run_orders.h"

/* Adds a report of the order, and of those by which the others lead from its second type back to its first. */
void order_report(struct reports *reports, struct notes *notes, const struct run_orders *orders, size_t order,
    const size_t *way, size_t count);

#endif
