/*
 * What stands after a seat's or a thread's number: its name and who made it, as far as they are known.
 */
#ifndef RECORD_THREAD_LABEL_H
#define RECORD_THREAD_LABEL_H

#include "notes.h"

/* Both, ` (NAME, made by FUNCTION @ SITE)`, or its name alone, ` (NAME)`: texts of one's own, empty where there is none. */
char *thread_label(const struct event *thread);
char *thread_name(const struct event *thread);

#endif
