/*
 * The settings that a recording keeps beside it, for those who look at it later: a word and its value in each line.
 */
#ifndef RECORD_SETTINGS_FILE_H
#define RECORD_SETTINGS_FILE_H

#include <stdbool.h>

#include "settings.h"

/* Writes them into the folder `work`. */
bool kept_write(const struct settings *settings, const char *work);

/*
 * Fills in what the program of the recording in the folder `records` was begun with, where nothing else is asked for now.
 * The directory and the program's name are always those.
 */
void kept_read(struct settings *settings, const char *records);

#endif
