/*
 * Texts of any bytes, written so that they are nothing but text where they stand.
 */
#ifndef RECORD_ESCAPE_H
#define RECORD_ESCAPE_H

#include <stdio.h>

/* Between the quotes of a string of JSON. */
void escape_json(FILE *to, const char *text);

#endif
