#include "verdict.h"

#include <errno.h>
#include <fcntl.h>
#include <poll.h>
#include <signal.h>
#include <spawn.h>
#include <stdlib.h>
#include <string.h>
#include <sys/wait.h>
#include <time.h>
#include <unistd.h>

#include "child_words.h"

enum {
    PIPE_BYTES = 1 << 20,
    READ_BYTES = 1 << 16,
    LITTLE_BYTES = 1 << 12,
    MOST_BYTES = 1 << 26,
    MOMENT = 300000,
    LEAVING = 1000,
    SIGNALLED = 128
};

extern char **environ;

/* Its standard input and output are these files. What this process ignores on its own behalf is as ever for it. */
static void spawn(struct verdict *verdict, const char *const *words, int in, int out, bool quiet)
{
    posix_spawn_file_actions_t files;
    posix_spawnattr_t how;
    sigset_t as_ever;
    child_words(NULL, words);
    sigemptyset(&as_ever);
    sigaddset(&as_ever, SIGPIPE);
    sigaddset(&as_ever, SIGXFSZ);
    posix_spawnattr_init(&how);
    posix_spawnattr_setsigdefault(&how, &as_ever);
    posix_spawnattr_setflags(&how, POSIX_SPAWN_SETSIGDEF);
    posix_spawn_file_actions_init(&files);
    posix_spawn_file_actions_adddup2(&files, in, STDIN_FILENO);
    posix_spawn_file_actions_adddup2(&files, out, STDOUT_FILENO);
    if (quiet)
        posix_spawn_file_actions_addopen(&files, STDERR_FILENO, "/dev/null", O_WRONLY, 0);
    int error = posix_spawnp(&verdict->process, words[0], &files, &how, (char *const *)words, environ);
    posix_spawn_file_actions_destroy(&files);
    posix_spawnattr_destroy(&how);
    if (error) {
        verdict->process = 0;
        verdict->status = error == ENOENT ? 127 : 126;
    }
}

/* Begins it with that file for its input, or with a pipe. */
static void begin(struct verdict *verdict, const char *const *words, int trace, bool quiet, FILE *told)
{
    int in[2] = {trace, -1}, out[2];
    *verdict = (struct verdict){.told = told, .status = 126, .in = -1, .out = -1, .patience = -1};
    if (trace < 0 && pipe2(in, O_CLOEXEC) != 0)
        return;
    if (pipe2(out, O_CLOEXEC) != 0) {
        if (trace < 0) {
            close(in[0]);
            close(in[1]);
        }
        return;
    }
    spawn(verdict, words, in[0], out[1], quiet);
    close(out[1]);
    verdict->out = out[0];
    if (trace >= 0)
        return;
    close(in[0]);
    verdict->in = in[1];
    fcntl(in[1], F_SETFL, O_NONBLOCK);
    fcntl(in[1], F_SETPIPE_SZ, PIPE_BYTES);
}

void verdict_begin(struct verdict *verdict, const char *witness, const char *word, FILE *told)
{
    verdict_ask(verdict, (const char *const[]){witness, word, NULL}, told);
}

void verdict_ask(struct verdict *verdict, const char *const *words, FILE *told)
{
    begin(verdict, words, -1, false, told);
}

static void close_file(int *file)
{
    if (*file >= 0)
        close(*file);
    *file = -1;
}

/* It tells line by line. Where little has come, more may come in a moment: neither is woken for each line then. */
static void let_come(const struct verdict *verdict)
{
    const struct timespec moment = {0, MOMENT};
    if (verdict->had_little)
        nanosleep(&moment, NULL);
}

/* Takes what it has told. */
static void take_output(struct verdict *verdict)
{
    char bytes[READ_BYTES];
    ssize_t length = read(verdict->out, bytes, sizeof bytes);
    verdict->had_little = length < LITTLE_BYTES;
    if (length > 0 && verdict->told)
        fwrite(bytes, 1, (size_t)length, verdict->told);
    else if (length == 0 || (length < 0 && errno != EINTR))
        close_file(&verdict->out);
}

/* It takes too long, or isn't wanted any more. It has nothing to lose. While it runs its files stay open, or it would complain. */
static void cut_off(struct verdict *verdict)
{
    if (verdict->process != 0)
        kill(verdict->process, SIGKILL);
    close_file(&verdict->in);
    close_file(&verdict->out);
}

/* What it tells is taken between, so that neither waits for the other. */
void verdict_feed(struct verdict *verdict, const char *bytes, size_t length)
{
    while (length > 0 && verdict->in >= 0) {
        struct pollfd files[] = {{.fd = verdict->in, .events = POLLOUT}, {.fd = verdict->out, .events = POLLIN}};
        int ready = poll(files, 2, verdict->patience);
        if (ready == 0)
            cut_off(verdict);
        if (ready == 0 || (ready < 0 && errno != EINTR))
            return;
        if (files[1].revents)
            take_output(verdict);
        if (!files[0].revents) {
            let_come(verdict);
            continue;
        }
        ssize_t done = write(verdict->in, bytes, length);
        if (done > 0) {
            bytes += done;
            length -= (size_t)done;
        } else if (done < 0 && errno != EAGAIN && errno != EINTR) {
            close_file(&verdict->in);
        }
    }
}

bool verdict_hears(struct verdict *verdict)
{
    struct pollfd file = {.fd = verdict->out, .events = POLLIN};
    let_come(verdict);
    int ready = verdict->out >= 0 ? poll(&file, 1, verdict->patience) : -1;
    if (ready == 0)
        cut_off(verdict);
    else if (ready > 0)
        take_output(verdict);
    return verdict->out >= 0;
}

int verdict_end(struct verdict *verdict)
{
    int status = 0;
    close_file(&verdict->in);
    while (verdict->out >= 0)
        take_output(verdict);
    if (verdict->process == 0)
        return verdict->status;
    while (waitpid(verdict->process, &status, 0) < 0)
        if (errno != EINTR)
            return 126;
    verdict->process = 0;
    verdict->status = WIFSIGNALED(status) ? SIGNALLED + WTERMSIG(status) : WEXITSTATUS(status);
    return verdict->status;
}

/* It may have begun programs of its own, which would complain if nobody read any more. */
void verdict_leaves(struct verdict *verdict)
{
    verdict->told = NULL;
    verdict->patience = LEAVING;
    close_file(&verdict->in);
    while (verdict_hears(verdict))
        ;
    cut_off(verdict);
    verdict_end(verdict);
}

char *verdict_on_text(const char *witness, const char *word, const char *text, size_t length, int patience)
{
    struct verdict verdict;
    char *told = NULL;
    size_t told_length = 0;
    FILE *to = open_memstream(&told, &told_length);
    if (!to)
        return NULL;
    begin(&verdict, (const char *const[]){witness, word, NULL}, -1, true, to);
    verdict.patience = patience;
    verdict_feed(&verdict, text, length);
    close_file(&verdict.in);
    while (verdict_hears(&verdict))
        if (fflush(to) != 0 || told_length > MOST_BYTES)
            cut_off(&verdict);
    int status = verdict_end(&verdict);
    if (fclose(to) == 0 && status < SIGNALLED)
        return told;
    free(told);
    return NULL;
}

int verdict_on(const char *witness, const char *word, const char *trace, FILE *told)
{
    struct verdict verdict;
    int file = open(trace, O_RDONLY | O_CLOEXEC);
    if (file < 0)
        return 126;
    begin(&verdict, (const char *const[]){witness, word, NULL}, file, true, told);
    close(file);
    return verdict_end(&verdict);
}

int verdict_status(const char *const *words, const char *text, bool quiet)
{
    struct verdict verdict;
    int ends[2], status = 126;
    if (pipe2(ends, O_CLOEXEC) != 0)
        return status;
    /* It stands in the pipe before anybody reads: one that doesn't read is none that harms. */
    bool is_there = write(ends[1], text, strlen(text)) == (ssize_t)strlen(text);
    close(ends[1]);
    if (is_there) {
        begin(&verdict, words, ends[0], quiet, NULL);
        status = verdict_end(&verdict);
    }
    close(ends[0]);
    return status;
}
