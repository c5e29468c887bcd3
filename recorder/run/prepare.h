/*
 * What has to be there before the program runs: the folder of the recording, and what the recorder reads.
 */
#ifndef RECORD_PREPARE_H
#define RECORD_PREPARE_H

#include "options.h"

/* Refuses an ignore file that says nothing sensible, and files to write that can't be written. */
void prepare_files(const struct settings *settings);

/* Makes the folder that all of this run is in. It is removed when `record` ends, until it is handed over. */
char *prepare_work(void);
void prepare_hands_over(void);

/* The recorder was built for this run alone, in that folder: so all of the run is in it. */
void prepare_removes(const char *work);

/* The folder for the recorder's files, below `work`, with the room for its status. Fills in `settings.little`. */
char *prepare_records(struct settings *settings, const char *work);

/* Ends `record`, where the folder of the recording can't be made. */
_Noreturn void fail_for_room(void);

/* What the recorder reads when the program loads it. */
void prepare_environment(const struct options *options, const char *records);

/* Of --confirm=noise: requests with something held wait a little, at random. After prepare_environment. */
void prepare_noise(const struct options *options, const char *records);

/* Until then the kernel tells of this process, too, in which folder the recording is: it has the status mapped. */
void prepare_lets_go(void);

#endif
