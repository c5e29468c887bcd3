/*
 * Memory that is there, or `record` ends: with the status 126 and a line that says so. The recording is kept then.
 */
#ifndef RECORD_ALLOCATION_H
#define RECORD_ALLOCATION_H

#include <stddef.h>

/* Large memory of zeroes is the kernel's each time, so that what isn't touched takes nothing. */
void allocation_begins(void);
void *take(size_t bytes);                         /* all zeroes */
void *grow(void *old, size_t count, size_t size); /* as realloc, of `count` things of that size */
/* From `had` things to `count`, of which the new ones are all zeroes. */
void *grow_zeroed(void *old, size_t had, size_t count, size_t size);
char *copy(const char *text); /* a text of one's own */
char *copy_bytes(const char *bytes, size_t length);
/* As sprintf, into a text of one's own. */
char *say_text(const char *format, ...) __attribute__((format(printf, 1, 2)));
/* `1 report`, or `2 reports`: so many of them, into a text of one's own. */
char *say_count(unsigned long number, const char *what, const char *many);

/* A text that grows; all zeroes is an empty one. After what was added stands a zero. */
struct text {
    char *bytes;
    size_t length, room;
};
void text_add(struct text *text, const char *bytes, size_t length);

/* Room for one more at the end of a growing array: ADD(list, count, room) is an lvalue of the new last one. */
#define ADD(list, count, room)                                                                                         \
    (*((count) < (room) ? 0 : ((room) = (room) ? 2 * (room) : 16, (list) = grow((list), (room), sizeof *(list)), 0),   \
        (list) + (count)++))

#endif
