/*
 * begun WAY: a process that begins another one, whose locks are taken in opposite orders. In lower case the other one is
 * given the environment, in upper case an empty one; `clone` and `bare` make it by calls of the kernel.
 */
#define _GNU_SOURCE
#include <linux/sched.h>
#include <pthread.h>
#include <signal.h>
#include <spawn.h>
#include <stdio.h>
#include <stdlib.h>
#include <string.h>
#include <sys/syscall.h>
#include <sys/wait.h>
#include <unistd.h>

extern char **environ;
static pthread_mutex_t pool = PTHREAD_MUTEX_INITIALIZER;
static pthread_mutex_t journal = PTHREAD_MUTEX_INITIALIZER;
static char *none[] = {NULL};

static void both(pthread_mutex_t *first, pthread_mutex_t *second)
{
    pthread_mutex_lock(first);
    pthread_mutex_lock(second);
    pthread_mutex_unlock(second);
    pthread_mutex_unlock(first);
}

static int reversal(void)
{
    both(&pool, &journal);
    both(&journal, &pool);
    return 0;
}

static int awaited(pid_t child)
{
    int status = 0;
    waitpid(child, &status, 0);
    return WEXITSTATUS(status);
}

static int spawned(char **words, char **environment, int by_path)
{
    pid_t child;
    if ((by_path ? posix_spawnp : posix_spawn)(&child, words[0], NULL, NULL, words, environment) != 0)
        return 1;
    return awaited(child);
}

/* A child that executes the program by the call, or 1 where it can't. */
#define EXECUTED(fork, call)       \
    do {                           \
        pid_t child = fork();      \
        if (child == 0) {          \
            call;                  \
            _exit(1);              \
        }                          \
        return awaited(child);     \
    } while (0)

static int unheard(pid_t child)
{
    if (child == 0)
        _exit(reversal());
    return awaited(child);
}

int main(int count, char **word)
{
    const char *way = count > 1 ? word[1] : "";
    char *words[] = {word[0], NULL};
    struct clone_args made = {.exit_signal = SIGCHLD};
    if (*way == '\0')
        return reversal();
    if (strcmp(way, "execve") == 0)
        EXECUTED(fork, execve(word[0], words, environ));
    if (strcmp(way, "execv") == 0)
        EXECUTED(fork, execv(word[0], words));
    if (strcmp(way, "execvp") == 0)
        EXECUTED(vfork, execvp(word[0], words));
    if (strcmp(way, "execl") == 0)
        EXECUTED(vfork, execl(word[0], word[0], NULL));
    if (strcmp(way, "execlp") == 0)
        EXECUTED(fork, execlp(word[0], word[0], NULL));
    if (strcmp(way, "execle") == 0)
        EXECUTED(vfork, execle(word[0], word[0], NULL, environ));
    if (strcmp(way, "spawn") == 0)
        return spawned(words, environ, 0);
    if (strcmp(way, "spawnp") == 0)
        return spawned(words, environ, 1);
    if (strcmp(way, "system") == 0)
        return system(word[0]);
    if (strcmp(way, "EXECVE") == 0)
        EXECUTED(fork, execve(word[0], words, none));
    if (strcmp(way, "EXECVPE") == 0)
        EXECUTED(fork, execvpe(word[0], words, none));
    if (strcmp(way, "EXECLE") == 0)
        EXECUTED(vfork, execle(word[0], word[0], NULL, none));
    if (strcmp(way, "SELF") == 0)
        return execve(word[0], words, none);
    if (strcmp(way, "SPAWN") == 0)
        return spawned(words, none, 0);
    if (strcmp(way, "SPAWNP") == 0)
        return spawned(words, none, 1);
    if (strcmp(way, "SYSTEM") == 0) {
        clearenv();
        return system(word[0]);
    }
    if (strcmp(way, "clone") == 0)
        return unheard((pid_t)syscall(SYS_clone3, &made, sizeof made));
    if (strcmp(way, "bare") == 0)
        return unheard((pid_t)syscall(SYS_fork));
    /* What isn't there isn't started. */
    EXECUTED(fork, (execl("./none", "none", NULL), _exit(0)));
}
