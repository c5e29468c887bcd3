/*
 * A recorder's file, as the in-process half writes it (recorder/format.h): lines, then zeroes. It is only read, and whoever
 * has it may write to it or cut it meanwhile.
 */
#ifndef RECORD_STREAM_FILE_H
#define RECORD_STREAM_FILE_H

#include <stdbool.h>
#include <stddef.h>

struct stream {
    char *path;
    char *head;        /* the first line, without zeroes */
    const char *bytes; /* as they were when they were read */
    size_t length;     /* of the lines that are whole */
    size_t before;     /* so many bytes of the file come before these */
    size_t mapped;     /* memory for them */
    char *program;     /* of the second line */
    bool answered;     /* it was asked which mutexes are held, and has answered */
};

/*
 * Opens the file. Of one whose process goes on, the lines are those up to the first byte that isn't written; else a last
 * line that a kill has cut is left out, and zeroes between lines are passed over. False, with errno, where it can't be read.
 */
bool stream_open(struct stream *stream, const char *path, bool goes_on);
void stream_close(struct stream *stream);

/* As stream_open, with the lines alone that come after so many bytes of them. The program isn't read. */
bool stream_open_after(struct stream *stream, const char *path, size_t before, bool goes_on);

/* No more bytes than this are written in the file. It isn't read for that. */
size_t stream_room(const char *path);

/* The count of that name in the first line; false where there is none. */
bool stream_count(const struct stream *stream, const char *name, unsigned long *count);

#endif
