/*
 * Whether a file is a recorder's, of this version (recorder/format.h).
 */
#ifndef RECORD_VERSION_H
#define RECORD_VERSION_H

#include <stdbool.h>
#include <stddef.h>

/* Whether the version is this program's, as far as the first line stands in these bytes, with which the file begins. */
bool version_is_own(const char *bytes, size_t length);

/* Refuses a file that doesn't begin as the recorder's do, or not as this one's. Where nothing is written, zeroes stand. */
void version_check(const char *path, const char *bytes, size_t length);

#endif
