/*
 * What `witness forecast` answers of a trace of errands (errand_trace.h), read back: whose step each line is.
 */
#ifndef RECORD_FORECAST_ANSWER_H
#define RECORD_FORECAST_ANSWER_H

#include "errand_trace.h"
#include "schedules.h"

/*
 * Gives the reports of the circles what was answered of them; circles are those of the trace's seats. A schedule counts
 * where it ends with requests at errands' ends. Where nothing is answered at all, nothing changes.
 */
void schedules_read(const struct errand_trace *trace, const struct notes *notes, const struct circle *circle,
    const char *answer, size_t length);

#endif
