/*
 * What `record --show` looks at.
 */
#ifndef RECORD_PROCESS_VIEW_H
#define RECORD_PROCESS_VIEW_H

#include "options.h"

/*
 * The target is the number of a recorded process, or of a `record` that waits for its program; or a recorder's file, or a
 * folder of such. Tells of a copy of what is there so far, in the folder `work`. The program isn't stopped. The answer is
 * the status of `record`.
 */
int look(struct options *options, const char *work);

#endif
