/*
 * Runs the program.
 */
#ifndef RECORD_LAUNCH_H
#define RECORD_LAUNCH_H

#include "show.h"

/*
 * Runs the program of these words with the object `preload` before its own, or without one where that is NULL. Signals
 * that come meanwhile are passed on to it. What the run has to tell is told meanwhile, where `follows` is true. The answer
 * is how it ended.
 */
struct ending launch(const char *preload, char **words, struct run *run, bool follows);

#endif
