/*
 * How far it is with a long file, for somebody who sits at a terminal.
 */
#ifndef RECORD_PROGRESS_H
#define RECORD_PROGRESS_H

/* To be called for each line; only each 262,144th is told. */
void progress_read(unsigned long lines);
void progress_resolved(unsigned long lines, unsigned long all);

#endif
