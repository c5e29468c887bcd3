/*
 * The orders of processes as pictures, which dot (Graphviz) draws of what `witness dot` says: types, orders with the place
 * where each was first asked for, and in red the reversals, dashed, with the orders that they break.
 */
#ifndef RECORD_GRAPH_H
#define RECORD_GRAPH_H

#include <stddef.h>

#include "run_reports.h"

/* Refuses a name of a file in which no picture can be drawn here. */
void graph_check(const char *file);

/*
 * Draws those of the run, whose JSON report this is, to FILE.svg, of further processes to FILE.1.svg and so on; or writes the
 * text for dot, FILE.dot. Where a process's orders aren't known there is no file. The first file in which that failed, as a text
 * of one's own; NULL where none did.
 */
char *graphs_draw(const char *file, const char *witness, const struct run_reports *gathered, const char *report,
    size_t length);

#endif
