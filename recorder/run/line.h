/*
 * A line of a stream, parted where it stands: fields by spaces, numbered from 0, which is its word.
 */
#ifndef RECORD_LINE_H
#define RECORD_LINE_H

#include <stdbool.h>
#include <stddef.h>
#include <stdint.h>

enum { FIELDS_MOST = 32 }; /* further ones aren't there */

struct field {
    const char *at;
    size_t length;
};

struct line {
    const char *at, *end; /* without its newline */
    unsigned count;
    struct field field[FIELDS_MOST];
};

/* The line that begins at *at, which becomes the next one's beginning. False where there is none before `end`. */
bool line_next(struct line *line, const char **at, const char *end);

bool field_is(const struct line *line, unsigned number, const char *word);
/* The field as a number that is `most` or less. False where it isn't one. */
bool field_number(const struct line *line, unsigned number, uint32_t most, uint32_t *value);
bool field_hexadecimal(const struct line *line, unsigned number, uint64_t *value);
/* The word of others that the field has, without escapes, as a text of one's own; NULL where it has none. */
char *field_word(const struct line *line, unsigned number);

#endif
