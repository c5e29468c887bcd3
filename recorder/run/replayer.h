/*
 * The program that replays: it is looked at before anything runs, not after.
 */
#ifndef RECORD_REPLAYER_H
#define RECORD_REPLAYER_H

#include "settings.h"

/*
 * Fails where it can't be run, or doesn't know what was asked for. Whether it can judge one process after another is in the
 * settings then. `settings->witness` is as it was named; where that is the script of a repository whose program stands built,
 * it is that program after this. A trial takes minutes, so with it nothing is told before the end, and grades are asked of no
 * other than a program that stands built.
 */
void replayer_check(struct settings *settings);

#endif
