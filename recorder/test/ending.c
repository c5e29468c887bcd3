/* ending WAY: a reversal, some output, and the end by one of five ways. */
#include <pthread.h>
#include <signal.h>
#include <stdio.h>
#include <stdlib.h>
#include <unistd.h>

static pthread_mutex_t pool = PTHREAD_MUTEX_INITIALIZER;
static pthread_mutex_t journal = PTHREAD_MUTEX_INITIALIZER;

static void both(pthread_mutex_t *first, pthread_mutex_t *second)
{
    pthread_mutex_lock(first);
    pthread_mutex_lock(second);
    pthread_mutex_unlock(second);
    pthread_mutex_unlock(first);
}

int main(int count, char **words)
{
    both(&pool, &journal);
    both(&journal, &pool);
    puts("output");
    fflush(stdout);
    pthread_mutex_lock(&pool);
    pthread_mutex_lock(&journal);
    switch (count > 1 ? atoi(words[1]) : 0) {
    case 1: exit(3);
    case 2: _exit(4);
    case 3: abort();
    case 4: kill(getpid(), SIGKILL);
    }
    return 5;
}
