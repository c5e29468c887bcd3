/*
 * What tools/trace-of does.
 */
#ifndef RECORD_PRINT_TRACE_H
#define RECORD_PRINT_TRACE_H

#include "settings.h"

/* Writes the trace of the recorder's file to standard output. */
void print_trace(const struct settings *settings, const char *path);

#endif
