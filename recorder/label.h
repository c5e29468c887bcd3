/*
 * The names that a program's other languages give types of locks: `Mutex<Log> (log.rs:8:20)`, with the line and the column
 * where such locks are made. The column is told where two of one line differ.
 */
#ifndef RECORDER_LABEL_H
#define RECORDER_LABEL_H

#include <stddef.h>
#include <string.h>

/* Where `:NUMBER` begins, which ends there; 0 where none does. */
static inline size_t label_number(const char *label, size_t end)
{
    size_t at = end;
    while (at > 0 && label[at - 1] >= '0' && label[at - 1] <= '9')
        at--;
    return at > 1 && at < end && label[at - 1] == ':' ? at - 1 : 0;
}

/* Where the column begins, which ends with the bracket at the label's end; 0 where it has none. */
static inline size_t label_column(const char *label)
{
    size_t length = strlen(label);
    size_t column = length > 1 && label[length - 1] == ')' ? label_number(label, length - 1) : 0;
    return column > 0 && label_number(label, column) > 0 ? column : 0;
}

/* Leaves out the line that ends with the bracket at the label's end, and a column after it: in place. */
static inline void label_without_line(char *label)
{
    size_t length = strlen(label), end = length > 0 && label[length - 1] == ')' ? length - 1 : 0;
    size_t column = label_column(label), at = label_number(label, column > 0 ? column : end);
    if (at > 0)
        memmove(label + at, label + end, length - end + 1);
}

/* Whether they differ in their columns alone. */
static inline int labels_part(const char *one, const char *other)
{
    size_t column = label_column(one);
    return column > 0 && column == label_column(other) && strncmp(one, other, column) == 0 && strcmp(one, other) != 0;
}

#endif
