/*
 * Files of orders. Beside a file FILE stand FILE.runs, how many runs met each order, and FILE.lock, by which those that
 * write it take turns. A file without counts is one run's. Nothing stands beside what isn't a regular file.
 */
#ifndef RECORD_ORDERS_FILE_H
#define RECORD_ORDERS_FILE_H

#include <stdbool.h>
#include <stdio.h>

#include "run_orders.h"

/*
 * Reads the files' orders, and their runs, by `witness orders merge`; and those that a run met, unless that is NULL: they
 * are new where no file has them. They come by their keys in the C locale. Why they can't be read, as a text of one's
 * own; NULL where they were.
 */
char *run_orders_read(struct run_orders *orders, const char *witness, char *const *files, const struct run_orders *met);

/* The file that is meant where the path is a link; else the path: a text of one's own. */
char *orders_file_path(const char *path);

/*
 * Waits for its turn to write the file. False where it can't have one: errno says why. The lock, which close() gives
 * back, is below 0 where there is none, as of what isn't a regular file.
 */
bool orders_file_lock(const char *path, int *lock);

/*
 * Writes the file and its counts in place of those that are there, but for new orders that are against others. Who
 * reads it meanwhile has the old one or the new one, whole. Why it can't be written, as a text of one's own; NULL
 * where it was. What isn't a regular file is written to, and has no counts.
 */
char *orders_file_write(const struct run_orders *orders, const char *path);

/* Writes the orders' lines. */
void orders_file_print(FILE *to, const struct run_orders *orders);

#endif
