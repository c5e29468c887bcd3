/*
 * Orders of many runs as a picture, and as a page.
 */
#ifndef RECORD_RUN_ORDERS_PICTURE_H
#define RECORD_RUN_ORDERS_PICTURE_H

#include <stdbool.h>

#include "orders_verdict.h"

/* Which files are wanted; NULL where none is. */
struct drawing {
    const char *graph, *html;
    const char *witness; /* the program that makes the page */
};

/* Refuses what can't be written. */
void drawing_check(const struct drawing *drawing);

/* Writes them. Where one can't be written that is told, and the answer is false. The reports are taken over. */
bool run_orders_draw(const struct drawing *drawing, const struct run_orders *orders, struct judgement *judgement,
    const char *summary);

#endif
