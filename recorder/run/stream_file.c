#include "stream_file.h"

#include "allocation.h"
#include "format.h"
#include "line.h"
#include "source_names.h"

#include <errno.h>
#include <fcntl.h>
#include <stdlib.h>
#include <string.h>
#include <sys/mman.h>
#include <sys/stat.h>
#include <unistd.h>

/* Up to and with the last newline of them. */
static size_t whole_lines(const char *bytes, size_t length)
{
    const char *last = length > 0 ? memrchr(bytes, '\n', length) : NULL;
    return last ? (size_t)(last - bytes) + 1 : 0;
}

/* What is left of the bytes without zeroes, moved to their beginning. */
static size_t without_zeroes(char *bytes, size_t length)
{
    char *to = bytes;
    for (size_t at = 0; at < length; at++)
        if (bytes[at])
            *to++ = bytes[at];
    return (size_t)(to - bytes);
}

/* The bytes as the lines that are whole. Zeroes at the file's end are room that it has; others only damage leaves. */
static void find_lines(struct stream *stream, char *bytes, bool goes_on)
{
    size_t length = stream->mapped;
    const char *zero = length > 0 ? memchr(bytes, '\0', length) : NULL;
    if (zero && !goes_on) {
        while (length > 0 && !bytes[length - 1])
            length--;
        if ((size_t)(zero - bytes) < length)
            length = without_zeroes(bytes, length);
    } else if (zero) {
        length = (size_t)(zero - bytes);
    }
    stream->bytes = bytes;
    stream->length = whole_lines(bytes, length);
}

static char *first_line(const char *bytes, size_t length)
{
    const char *end = length > 0 ? memchr(bytes, '\n', length) : NULL;
    return copy_bytes(bytes, end ? (size_t)(end - bytes) : 0);
}

/* The first line as it is by now, a text of one's own: counts are written into it. */
static char *head_of(const struct stream *stream, int file)
{
    char bytes[1 << 10];
    if (stream->before == 0)
        return first_line(stream->bytes, stream->length);
    ssize_t got = pread(file, bytes, sizeof bytes, 0);
    return first_line(bytes, got > 0 ? without_zeroes(bytes, (size_t)got) : 0);
}

/* The name that the second line has. */
static char *program_in(const struct stream *stream)
{
    struct line line;
    const char *at = stream->bytes;
    char *name = NULL;
    for (unsigned lines = 0; lines < 2 && !name && line_next(&line, &at, stream->bytes + stream->length); lines++)
        if (field_is(&line, 0, WORD_PROGRAM))
            name = field_word(&line, 1);
    if (name)
        clean_name(name);
    return name ? name : copy("");
}

/* Where something is written from there on; where the file's system knows nothing of holes, there. -1 of nothing. */
static off_t next_written(int file, off_t from)
{
    off_t found = lseek(file, from, SEEK_DATA);
    return found < 0 && errno == EINVAL ? from : found;
}

/* How far the file has room on the disk. */
static size_t room_of(int file, size_t size)
{
    off_t hole = lseek(file, 0, SEEK_HOLE);
    return hole >= 0 && (size_t)hole < size && lseek(file, hole, SEEK_DATA) < 0 ? (size_t)hole : size;
}

/*
 * What the file has outside its holes, in memory of one's own: so it may be mended where it is damaged. It isn't mapped,
 * since whoever writes it may cut it meanwhile, and what was cut off can't be touched.
 */
static void *read_pieces(struct stream *stream, int file, size_t size)
{
    enum { PIECE = 1 << 20 };
    static char nothing[1];
    size_t room = room_of(file, size);
    stream->mapped = room > stream->before ? room - stream->before : 0;
    if (stream->mapped == 0)
        return nothing;
    char *bytes = mmap(NULL, stream->mapped, PROT_READ | PROT_WRITE, MAP_PRIVATE | MAP_ANONYMOUS | MAP_NORESERVE, -1, 0);
    off_t at = (off_t)stream->before;
    while (bytes != MAP_FAILED && (at = next_written(file, at)) >= 0 && (size_t)at < room) {
        size_t left = room - (size_t)at;
        ssize_t got = pread(file, bytes + ((size_t)at - stream->before), left < PIECE ? left : PIECE, at);
        if (got <= 0)
            break;
        at += got;
    }
    return bytes;
}

bool stream_open_after(struct stream *stream, const char *path, size_t before, bool goes_on)
{
    struct stat status;
    void *bytes = MAP_FAILED;
    *stream = (struct stream){.before = before};
    int file = open(path, O_RDONLY | O_CLOEXEC | O_NONBLOCK);
    if (file < 0)
        return false;
    bool opened = fstat(file, &status) == 0;
    if (opened && !S_ISREG(status.st_mode)) {
        errno = S_ISDIR(status.st_mode) ? EISDIR : EINVAL;
        opened = false;
    }
    if (opened) {
        bytes = read_pieces(stream, file, (size_t)status.st_size);
        opened = bytes != MAP_FAILED;
    }
    if (opened) {
        find_lines(stream, bytes, goes_on);
        stream->head = head_of(stream, file);
    }
    int error = errno;
    close(file);
    errno = error;
    if (!opened)
        return false;
    stream->path = copy(path);
    stream->answered = strlen(stream->head) > ASKED_AT && stream->head[ASKED_AT] == ASKED_NOT;
    return true;
}

bool stream_open(struct stream *stream, const char *path, bool goes_on)
{
    if (!stream_open_after(stream, path, 0, goes_on))
        return false;
    stream->program = program_in(stream);
    return true;
}

void stream_close(struct stream *stream)
{
    if (stream->mapped > 0)
        munmap((void *)stream->bytes, stream->mapped);
    free(stream->path);
    free(stream->head);
    free(stream->program);
    *stream = (struct stream){0};
}

size_t stream_room(const char *path)
{
    struct stat status;
    size_t room = 0;
    int file = open(path, O_RDONLY | O_CLOEXEC | O_NONBLOCK);
    if (file >= 0 && fstat(file, &status) == 0)
        room = room_of(file, (size_t)status.st_size);
    if (file >= 0)
        close(file);
    return room;
}

bool stream_count(const struct stream *stream, const char *name, unsigned long *count)
{
    struct line line;
    const char *at = stream->head;
    if (!line_next(&line, &at, stream->head + strlen(stream->head)))
        return false;
    for (unsigned i = 0; i + 1 < line.count; i++) {
        uint32_t value;
        if (field_is(&line, i, name) && field_number(&line, i + 1, UINT32_MAX - 1, &value)) {
            *count = value;
            return true;
        }
    }
    return false;
}
