/*
 * Reads JSON, as `record --json` writes it: numbers have no more digits than a long long has.
 */
#ifndef RECORD_JSON_READER_H
#define RECORD_JSON_READER_H

#include "texts.h"

struct value {
    enum { VALUE_NULL, VALUE_TRUTH, VALUE_NUMBER, VALUE_TEXT, VALUE_LIST, VALUE_OBJECT } kind;
    const char *name;           /* within an object; NULL elsewhere */
    const char *text;           /* of a text; a zero in it ends it */
    long long number;           /* of a number what stands before its point; of a truth 1 or 0 */
    struct value *first, *next; /* of a list or an object what it has; what comes after this in the same one */
};

/* All of the text is one value, kept in `texts`. NULL where it isn't one, or has more than 64 values within one another. */
const struct value *json_read(const char *text, struct texts *texts);

/* The object's value of that name; NULL where it has none, or is none. */
const struct value *value_of(const struct value *object, const char *name);
/* Its text; NULL where it is none. */
const char *text_of(const struct value *object, const char *name);
/* The same; an empty text where it is none. */
const char *words_of(const struct value *object, const char *name);
/* Its number, which may be a truth; 0 where it is none. */
long long number_of(const struct value *object, const char *name);
/* The list of that name: its first value; NULL where there is none. */
const struct value *list_of(const struct value *object, const char *name);

#endif
