/*
 * A daemon that gives up its rights before its first nested request: it has no descriptors left (0), sees no file of the
 * system any more (1), may make no files (2), or does the first in a child (3).
 */
#define _GNU_SOURCE
#include <pthread.h>
#include <stdlib.h>
#include <sys/resource.h>
#include <sys/wait.h>
#include <unistd.h>

static pthread_mutex_t journal = PTHREAD_MUTEX_INITIALIZER;
static pthread_mutex_t accounts = PTHREAD_MUTEX_INITIALIZER;

static void nested(pthread_mutex_t *first, pthread_mutex_t *second)
{
    pthread_mutex_lock(first);
    pthread_mutex_lock(second);
    pthread_mutex_unlock(second);
    pthread_mutex_unlock(first);
}

static void limit(int resource)
{
    struct rlimit none = {0, 0};
    setrlimit(resource, &none);
}

int main(int count, char **words)
{
    int way = count > 1 ? atoi(words[1]) : 0, status;
    if (way == 3 && fork() != 0) {
        wait(&status);
        return 0;
    }
    if (way == 1 && getuid() == 0 && (chroot("/proc/self/fdinfo") != 0 || setuid(65534) != 0))
        return 1;
    limit(way == 2 ? RLIMIT_FSIZE : RLIMIT_NOFILE);
    nested(&journal, &accounts);
    nested(&accounts, &journal);
    return 0;
}
