/*
 * leaving MILLISECONDS: leaves a process that goes on when the program has ended, as a server does. After that time it
 * takes two locks in opposite orders, and then it writes the file `left` and waits for a minute. It overwrites its
 * environment, as servers do that show what they are at.
 */
#define _GNU_SOURCE
#include <fcntl.h>
#include <pthread.h>
#include <stdlib.h>
#include <string.h>
#include <unistd.h>

extern char **environ;
static pthread_mutex_t pool = PTHREAD_MUTEX_INITIALIZER;
static pthread_mutex_t journal = PTHREAD_MUTEX_INITIALIZER;

static void both(pthread_mutex_t *first, pthread_mutex_t *second)
{
    pthread_mutex_lock(first);
    pthread_mutex_lock(second);
    pthread_mutex_unlock(second);
    pthread_mutex_unlock(first);
}

static void serve(int time)
{
    for (char **each = environ; *each; each++)
        memset(*each, 'x', strlen(*each));
    setsid();
    usleep((unsigned)time * 1000);
    both(&pool, &journal);
    both(&journal, &pool);
    if (time < 1000)
        return;
    close(open("left", O_WRONLY | O_CREAT, 0600));
    sleep(60);
}

int main(int count, char **word)
{
    if (fork() == 0 && fork() == 0)
        serve(count > 1 ? atoi(word[1]) : 0);
    return 0;
}
