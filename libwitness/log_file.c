/*
 * Where the library tells what it has to tell: standard error, or the file that WITNESS_LOG names. It keeps no file
 * open. Nothing is written to a descriptor 2 that isn't the file any more that it was at the start: the program may
 * have closed that one, and have a socket there.
 */
#include "report_action.h"

#include <errno.h>
#include <fcntl.h>
#include <limits.h>
#include <stdarg.h>
#include <string.h>
#include <sys/stat.h>
#include <unistd.h>

static char log_path[PATH_MAX];
static struct stat error_file; /* what standard error was at the start */
static bool has_error_file;

/* An absolute path, since the program may change its folder; %p becomes the process's number when it is written to. */
void tell_begins(void)
{
    const char *named = secure_getenv("WITNESS_LOG");
    has_error_file = fstat(STDERR_FILENO, &error_file) == 0;
    if (!named || !*named)
        return;
    if (*named != '/' && getcwd(log_path, sizeof log_path))
        strncat(log_path, "/", sizeof log_path - strlen(log_path) - 1);
    strncat(log_path, named, sizeof log_path - strlen(log_path) - 1);
}

static int log_opened(void)
{
    char path[PATH_MAX + 32];
    const char *mark = strstr(log_path, "%p");
    if (mark)
        snprintf(path, sizeof path, "%.*s%d%s", (int)(mark - log_path), log_path, (int)getpid(), mark + 2);
    else
        snprintf(path, sizeof path, "%s", log_path);
    return open(path, O_WRONLY | O_APPEND | O_CREAT | O_CLOEXEC, 0666);
}

static bool is_error_file(void)
{
    struct stat now;
    return has_error_file && fstat(STDERR_FILENO, &now) == 0 && now.st_dev == error_file.st_dev
        && now.st_ino == error_file.st_ino && now.st_rdev == error_file.st_rdev;
}

static void write_all(int file, const char *text, size_t length)
{
    while (length > 0) {
        ssize_t written = write(file, text, length);
        if (written < 0 && errno == EINTR)
            continue;
        if (written <= 0)
            return;
        text += written;
        length -= (size_t)written;
    }
}

static void write_out(const char *text, size_t length)
{
    int file = *log_path ? log_opened() : -1;
    if (file >= 0) {
        write_all(file, text, length);
        close(file);
    } else if (is_error_file()) {
        write_all(STDERR_FILENO, text, length);
    }
}

/* The signals that a write may bring, which are blocked: those that weren't there before are taken away again. */
static void take_signals(const sigset_t *before)
{
    sigset_t taken, now;
    sigemptyset(&taken);
    sigpending(&now);
    if (sigismember(&now, SIGPIPE) && !sigismember(before, SIGPIPE))
        sigaddset(&taken, SIGPIPE);
    if (sigismember(&now, SIGXFSZ) && !sigismember(before, SIGXFSZ))
        sigaddset(&taken, SIGXFSZ);
    while (sigtimedwait(&taken, NULL, &(struct timespec){0, 0}) > 0)
        ;
}

struct text {
    const char *from;
    size_t length;
};

/*
 * A pipe that nobody reads any more, or a limit on the size of files, doesn't end the program; and the thread isn't
 * cancelled in a call that is none where it may be.
 */
static void tell_text(void *argument)
{
    const struct text *text = argument;
    int before = errno, cancellation;
    sigset_t signals, outside, waiting;
    sigemptyset(&signals);
    sigaddset(&signals, SIGPIPE);
    sigaddset(&signals, SIGXFSZ);
    pthread_setcancelstate(PTHREAD_CANCEL_DISABLE, &cancellation);
    sigpending(&waiting);
    pthread_sigmask(SIG_BLOCK, &signals, &outside);
    errno = 0;
    write_out(text->from, text->length);
    if (errno == EPIPE || errno == EFBIG)
        take_signals(&waiting);
    pthread_sigmask(SIG_SETMASK, &outside, NULL);
    pthread_setcancelstate(cancellation, NULL);
    errno = before;
}

void tell(const char *from, size_t length)
{
    struct text text = {from, length};
    aside(tell_text, &text);
}

struct line {
    const char *format;
    va_list *words;
};

static void put_line(void *argument)
{
    struct line *it = argument;
    char line[512] = "witness: ";
    size_t length = strlen(line);
    if (vsnprintf(line + length, sizeof line - length - 1, it->format, *it->words) < 0)
        return;
    length = strlen(line);
    line[length] = '\n';
    tell(line, length + 1);
}

void tell_line(const char *format, ...)
{
    va_list words;
    va_start(words, format);
    aside(put_line, &(struct line){format, &words});
    va_end(words);
}
