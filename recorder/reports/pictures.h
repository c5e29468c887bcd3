/*
 * The orders of a run as pictures, which dot (Graphviz) draws: one for each report of orders, and one for each process.
 */
#ifndef RECORD_PICTURES_H
#define RECORD_PICTURES_H

#include "run_reports.h"

/*
 * Draws them, once they are gathered, of their JSON report, whose text is NULL where it isn't there. Where that or dot isn't
 * there, or one of both programs fails, there is none.
 */
void pictures_draw(struct run_reports *gathered, const char *witness, const char *report, size_t length);

#endif
