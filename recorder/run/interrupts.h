/*
 * Signals that end `record` while it makes ready: what it has made by then is removed first. A limit on the size of files
 * is meant for the program: here it is a failure to write.
 */
#ifndef RECORD_INTERRUPTS_H
#define RECORD_INTERRUPTS_H

/* From here on INT, TERM and HUP are only noted. Those that are ignored stay so. */
void interrupts_catch(void);

/* Ends with 128 and the number of the one that came, if one did. */
void interrupts_heed(void);

/* They are as they were before, but for XFSZ. One that came ends. */
void interrupts_leave(void);

/* All are as they were before: for a process that becomes the program. */
void interrupts_restore(void);

#endif
