/*
 * The file that the stream stands in.
 *
 * The file is mapped, so that what was written is in it whatever ends the program, and no file descriptor of the
 * program is ever touched. It is made when the program is loaded, since later the program may have no right to, or no
 * descriptor left; it has no bytes but zeros before the first line, and takes no room on the disk. Room is asked for
 * piece by piece beforehand, so that a full disk ends the stream and not the program.
 */
#include "judge.h"

#include <errno.h>
#include <fcntl.h>
#include <stdarg.h>
#include <string.h>
#include <sys/stat.h>

/* A line has room for a path of 4,096 bytes, each of which is escaped. */
enum { PATH_MOST = 512, LINE_MOST = 1 << 14, PIECE = 1 << 16, ATTEMPTS_MOST = 100 };

#ifndef MADV_POPULATE_WRITE
#define MADV_POPULATE_WRITE 23
#endif

/* How much of the file is mapped at a time. */
enum { WINDOW = 1 << 20 };

static struct {
    char path[PATH_MOST];
    char *at;             /* where the next line goes */
    char *ready;          /* up to here there is room on the disk */
    char *end;            /* of the window */
    char *first;          /* the first window, which stays mapped */
    char *counts[MISSES]; /* where the first line has each count */
    uint64_t offset;      /* of the file's next window */
    uint32_t entries;     /* of the verifier's log */
    uint32_t attempts;    /* that failed to make the file */
    bool begun;           /* its first line is written */
    bool ended;
    enum failure cause; /* why it has ended, or the file wasn't made */
    char line[LINE_MOST];
    size_t length;
    bool is_long; /* the line doesn't fit */
} stream;
__attribute__((aligned(4096))) char asked_page[PAGE_BYTES];
uint64_t stream_made_at;
static size_t name_at; /* where the file's name begins in its path */
#define NAME_OF(number, name) name,
static const char *const missed_names[MISSES] = {EACH_MISSED(NAME_OF)};

static void put_bytes(const char *from, size_t length)
{
    if (length > LINE_MOST - stream.length) {
        stream.is_long = true;
        return;
    }
    memcpy(stream.line + stream.length, from, length);
    stream.length += length;
}

/* The number in so many digits of its base as it has. */
static void put_digits(uint64_t number, uint32_t base)
{
    char digits[20];
    size_t at = sizeof digits;
    do
        digits[--at] = "0123456789abcdef"[number % base];
    while (number /= base);
    put_bytes(digits + at, sizeof digits - at);
}

static void put_word(const char *word)
{
    if (!*word) {
        put_bytes(NO_NAME, strlen(NO_NAME));
        return;
    }
    size_t room = LINE_MOST - stream.length, length = word_escaped(word, stream.line + stream.length, room);
    if (length > room)
        stream.is_long = true;
    else
        stream.length += length;
}

void line_put(const char *words, ...)
{
    va_list list;
    va_start(list, words);
    for (; *words; words++) {
        bool is_wide = words[0] == '%' && words[1] == 'l';
        char byte = *words == '%' ? *(words += 1 + is_wide) : '\0';
        if (byte == '\0')
            put_bytes(words, 1);
        else if (byte == 's')
            put_word(va_arg(list, const char *));
        else if (byte == 'c')
            put_bytes(&(char){(char)va_arg(list, int)}, 1);
        else
            put_digits(is_wide ? va_arg(list, uint64_t) : va_arg(list, uint32_t), byte == 'x' ? 16 : 10);
    }
    va_end(list);
}

/*
 * A program of root's may give its rights up, and opens the file by its name again. Other users can't find that name:
 * they may not read the folder, which is in one of a name that was drawn by lot.
 */
static void opens_to_all(int file)
{
    struct stat folder;
    stream.path[name_at] = '\0';
    bool is_there = geteuid() == 0 && stat(stream.path, &folder) == 0;
    stream.path[name_at] = '/';
    if (is_there && (folder.st_mode & (S_IROTH | S_ISVTX)) == S_ISVTX)
        fchmod(file, 0666);
}

/* Maps the file's next window. False where there is none. */
static bool window_opens(int flags)
{
    void *window = NULL;
    uint64_t size = stream.offset + WINDOW;
    errno = EFBIG;
    int file = file_may_have(size) ? open(stream.path, O_RDWR | O_CLOEXEC | flags, 0600) : -1;
    if (file < 0)
        return false;
    if (flags & O_CREAT)
        opens_to_all(file);
    if (ftruncate(file, (off_t)size) == 0)
        window = mapped(WINDOW, PROT_READ | PROT_WRITE, MAP_SHARED, file, (off_t)stream.offset);
    if (window && stream.offset == 0 && !all_slow)
        mmap(asked_page, PAGE_BYTES, PROT_READ | PROT_WRITE, MAP_SHARED | MAP_FIXED, file, 0);
    close(file);
    if (!window)
        return false;
    if (stream.offset == 0)
        stream.first = window;
    else if (stream.end - WINDOW != stream.first)
        table_goes(stream.end - WINDOW, WINDOW);
    stream.at = stream.ready = window;
    stream.end = stream.at + WINDOW;
    stream.offset = size;
    return true;
}

/* Asks for room by the file's name, as kernels before 5.14 need it. */
static bool piece_is_given(void)
{
    int file = open(stream.path, O_RDWR | O_CLOEXEC);
    if (file < 0)
        return false;
    int error = posix_fallocate(file, (off_t)stream.offset - (stream.end - stream.ready), PIECE);
    close(file);
    errno = error;
    return error == 0;
}

static enum failure cause_of(int error)
{
    switch (error) {
    case EFBIG:
        return FAILED_LIMIT;
    case ENOSPC:
    case EDQUOT:
    case EFAULT: /* of madvise */
        return FAILED_ROOM;
    case EMFILE:
    case ENFILE:
    case EBADF:
        return FAILED_FILES;
    default:
        return FAILED_OPEN;
    }
}

/* Room for a further piece of the file. False where there is none, and the stream has ended. */
static bool grows(void)
{
    bool given = stream.ready < stream.end || window_opens(0);
    if (given && madvise(stream.ready, PIECE, MADV_POPULATE_WRITE) != 0)
        given = errno == EINVAL && piece_is_given();
    stream.ended = !given;
    if (given)
        stream.ready += PIECE;
    else
        count_failure(stream.cause = cause_of(errno));
    return given;
}

/* The line that was put isn't written: cut, it would be another one. */
static COLD void leave_out(void)
{
    stream.is_long = false;
    stream.length = 0;
    count_missed(MISSED_LONG);
}

/* The line that was put goes to the file. Where there is no room any more, the stream ends with what it has. */
void stream_append(bool is_entry)
{
    const char *from = stream.line;
    line_put("\n");
    if (UNLIKELY(stream.is_long))
        leave_out();
    size_t left = name_at ? stream.length : 0;
    while (left > 0 && !stream.ended) {
        size_t room = (size_t)(stream.ready - stream.at);
        size_t now = left < room ? left : room;
        memcpy(stream.at, from, now);
        stream.at += now;
        from += now;
        left -= now;
        if (left > 0)
            grows();
    }
    stream.length = 0;
    stream.entries += is_entry;
}

bool stream_has_file(void)
{
    return name_at != 0;
}

/* A file that nobody has: a process may have had this one's number, or have been this one before an exec. */
static bool file_opens(void)
{
    for (uint32_t attempt = 0; attempt < 1000; attempt++) {
        snprintf(stream.path + name_at, PATH_MOST - name_at, "/%d.%u", getpid(), attempt);
        if (window_opens(O_CREAT | O_EXCL))
            return true;
        if (errno != EEXIST)
            return false;
    }
    return false;
}

/* The stream's first lines. */
static void begin(void)
{
    stream.begun = true;
    line_put(WORD_ASKED " 0 " WORD_VERSION " %u " WORD_MISSED, (uint32_t)FORMAT_VERSION);
    for (int what = 0; what < MISSES; what++) {
        line_put(" %s ", missed_names[what]);
        stream.counts[what] = stream.at + stream.length;
        line_put("0000000000");
    }
    line_put("\n" WORD_PROGRAM " %s", program_name);
    stream_append(false);
}

/*
 * Whether the stream takes lines. What it doesn't take is counted outside it. Without a folder (name_at is 0) no file has
 * them, and they are judged alone.
 */
bool stream_opens(void)
{
    if (LIKELY(stream.begun && !stream.ended) || name_at == 0)
        return true;
    bool is_there = !stream.ended && (stream.first || (stream.attempts < ATTEMPTS_MOST && file_opens()));
    if (is_there && grows()) {
        begin();
        return true;
    }
    if (!stream.ended && stream.attempts++ < ATTEMPTS_MOST)
        stream.cause = cause_of(errno);
    if (!is_there)
        count_failure(stream.cause);
    return false;
}

/* What the seats may owe the log at most: all locks that they hold, and a request for each seat. */
#define OWED_MOST (SEATS * (HELD_MOST + 2))

bool stream_has_room(void)
{
    if (!stream_opens())
        return false;
    if (stream.entries < LOG_LIMIT - OWED_MOST)
        return true;
    count_missed(MISSED_LOG);
    return false;
}

/* Whether somebody who looks on has set the byte. */
bool stream_is_asked(void)
{
    return stream.first && *(const volatile char *)&stream.first[ASKED_AT] == ASKED_NOW;
}

void stream_is_answered(void)
{
    stream.first[ASKED_AT] = ASKED_NOT;
}

uint64_t milliseconds(void)
{
    struct timespec now;
    clock_gettime(CLOCK_MONOTONIC, &now);
    return (uint64_t)now.tv_sec * 1000 + (uint64_t)now.tv_nsec / 1000000;
}

/* Makes the file. Where that fails, it is tried again when there is something to write. */
static void file_is_made(void)
{
    stream_made_at = milliseconds();
    if (name_at)
        file_opens();
}

bool stream_made(void)
{
    const char *directory = secure_getenv("RECORDER_DIRECTORY");
    name_at = directory ? strlen(directory) : 0;
    if (name_at == 0)
        return judge_is_wanted();
    if (name_at > PATH_MOST - 64)
        return false;
    memcpy(stream.path, directory, name_at + 1);
    file_is_made();
    return true;
}

/* Counts in the file itself, which is read also when the program was killed. Under the mutex. */
void count_missed(enum missed what)
{
    if (!stream_opens())
        return;
    if (name_at)
        count_digits(stream.counts[what]);
    judge_missed(what);
}

/* The page is the process's own from here on. False where there is no memory. */
static bool page_is_own(void)
{
    return all_slow
        || mmap(asked_page, PAGE_BYTES, PROT_READ | PROT_WRITE, MAP_PRIVATE | MAP_ANONYMOUS | MAP_FIXED, -1, 0)
        != MAP_FAILED;
}

static void unmap(void)
{
    if (!stream.first)
        return;
    if (stream.first != stream.end - WINDOW)
        table_goes(stream.first, WINDOW);
    table_goes(stream.end - WINDOW, WINDOW);
    page_is_own();
    stream.at = stream.ready = stream.end = stream.first = NULL;
    stream.offset = 0;
}

/* The child has a stream of its own. */
void stream_forked(void)
{
    unmap();
    stream.entries = stream.attempts = 0;
    stream.length = 0;
    stream.is_long = false;
    stream.begun = stream.ended = false;
    file_is_made();
}

/* The stream is that of another process. No call takes the quick way from here on, which knows of no sleep. */
void stream_is_left(void)
{
    if (page_is_own())
        asked_page[ASKED_AT] = ASKED_ALWAYS;
}

/* The process ends: a file without a line goes. Where it locks after all, it is made anew. */
void stream_end(void)
{
    if (!stream.first || stream.begun)
        return;
    unlink(stream.path);
    unmap();
}
