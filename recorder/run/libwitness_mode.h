/*
 * libwitness in the recorder's place: the verifier is inside the program, judges each acquisition when it is asked for, and
 * acts at a report. It records as the recorder does, and `record` tells.
 */
#ifndef RECORD_LIBWITNESS_MODE_H
#define RECORD_LIBWITNESS_MODE_H

#include <stdbool.h>

#include "options.h"

/* Whether the word of --on-report is one: tell, stop, trap, abort, or exit=N. */
bool inside_word(const char *word);

/* Whether something is asked for that it alone does. */
bool inside_is_wanted(const struct options *options);

/* The library; `record` ends where it isn't there. */
char *inside_library(const char *here);

/* The environment says what it is to do. */
void inside_environment(const struct options *options);

/* The words of gdb that runs the program of those words with the library, and stands where a report's lock is asked for. */
char **inside_debugger(const char *here, const char *library, char **program);

#endif
