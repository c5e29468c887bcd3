/*
 * Writes all of it, whatever comes between. False where it can't be written.
 */
#ifndef RECORD_WRITE_ALL_H
#define RECORD_WRITE_ALL_H

#include <stdbool.h>
#include <stddef.h>

bool write_all(int file, const char *bytes, size_t length);

#endif
