/*
 * The programs that a process starts. Whether such a program loads the recorder is known once it has: it may be linked
 * statically, run as another user, or be given an environment without LD_PRELOAD. So its slot of the status says first
 * that it is started, and the program itself says that it is loaded. A program that is started by a bare call of the
 * kernel isn't seen here.
 */
#include "recorder.h"

#include <errno.h>
#include <limits.h>
#include <stdarg.h>

extern char **environ;

/* More of a program's name isn't told. */
enum { NAME_MOST = 64 };

/* The path without its folders, as far as it can be read: a program may hand anything to the kernel, which answers EFAULT. */
static void copy_base(char to[NAME_MOST], const char *path)
{
    size_t length = 0;
    bool is_new = true;
    for (size_t at = 0; at < PATH_MAX; at++) {
        bool is_seen = at > 0 && (uintptr_t)(path + at) % PAGE_BYTES != 0;
        if ((!is_seen && !is_readable(path + at)) || !path[at])
            break;
        if (is_new)
            length = 0;
        is_new = path[at] == '/';
        if (!is_new && length < NAME_MOST - 1)
            to[length++] = path[at];
    }
    to[length] = '\0';
}

/* A child of vfork comes here, too: nothing may be written but what the processes share. */
static void begins(const char *program)
{
    char name[NAME_MOST];
    start();
    copy_base(name, program);
    status_started(getpid(), name);
    status_loaded(NOT_LOADED);
}

/* Where a call comes back, no program was started by it. */
static int comes_back(int answer)
{
    int before = errno;
    status_loaded(LOADED);
    errno = before;
    return answer;
}

/* A call that is PROGRAM from then on, or comes back. */
#define BECOMES(name, program, real_call, ...)                                                                         \
    EXPORT int name(__VA_ARGS__)                                                                                       \
    {                                                                                                                  \
        begins(program);                                                                                               \
        return comes_back(real.real_call);                                                                             \
    }
BECOMES(execve, path, execve(path, words, environment), const char *path, char *const words[], char *const environment[])
BECOMES(execv, path, execve(path, words, environ), const char *path, char *const words[])
BECOMES(execvp, file, execvpe(file, words, environ), const char *file, char *const words[])
BECOMES(execvpe, file, execvpe(file, words, environment), const char *file, char *const words[],
    char *const environment[])
BECOMES(fexecve, is_readable(words) ? words[0] : NULL, fexecve(file, words, environment), int file, char *const words[],
    char *const environment[])
BECOMES(execveat, path, execveat(folder, path, words, environment, flags), int folder, const char *path,
    char *const words[], char *const environment[], int flags)

/* One whose words are arguments, up to NULL: after that stands the ENVIRONMENT, if it has one. */
#define BECOMES_BY_WORDS(name, real_name, environment)                                                                 \
    EXPORT int name(const char *path, const char *word, ...)                                                           \
    {                                                                                                                  \
        va_list list;                                                                                                  \
        size_t count = 1;                                                                                              \
        va_start(list, word);                                                                                          \
        while (va_arg(list, const char *))                                                                             \
            count++;                                                                                                   \
        va_end(list);                                                                                                  \
        char *words[count + 1];                                                                                        \
        words[0] = (char *)word;                                                                                       \
        va_start(list, word);                                                                                          \
        for (size_t i = 1; i <= count; i++)                                                                            \
            words[i] = va_arg(list, char *);                                                                           \
        char **given = environment;                                                                                    \
        va_end(list);                                                                                                  \
        begins(path);                                                                                                  \
        return comes_back(real.real_name(path, words, given));                                                         \
    }
BECOMES_BY_WORDS(execl, execve, environ)
BECOMES_BY_WORDS(execlp, execvpe, environ)
BECOMES_BY_WORDS(execle, execve, va_arg(list, char **))

#define SPAWNS(name)                                                                                                   \
    EXPORT int name(pid_t *process, const char *path, const posix_spawn_file_actions_t *actions,                       \
        const posix_spawnattr_t *attributes, char *const words[], char *const environment[])                           \
    {                                                                                                                  \
        pid_t own;                                                                                                     \
        start();                                                                                                       \
        int answer = real.name(process ? process : &own, path, actions, attributes, words, environment);               \
        if (answer == 0)                                                                                               \
            status_started(process ? *process : own, path);                                                            \
        return answer;                                                                                                 \
    }
SPAWNS(posix_spawn)
SPAWNS(posix_spawnp)

/* The C library starts a shell, which loads the recorder where the environment says so. */
static COLD void shell_begins(uintptr_t stack)
{
    start();
    if (getenv("LD_PRELOAD") && getenv("RECORDER_DIRECTORY"))
        return;
    GOES_INSIDE_OR(stack) return;
    ENTERS_OR return;
    count_failure(FAILED_BARE);
}

EXPORT int system(const char *command)
{
    if (command)
        shell_begins(HERE);
    return real.system(command);
}

EXPORT FILE *popen(const char *command, const char *how)
{
    shell_begins(HERE);
    return real.popen(command, how);
}
