/* A reversal by the first thread, and what comes after it. */
#include <pthread.h>
#include <stdio.h>

static pthread_mutex_t pool = PTHREAD_MUTEX_INITIALIZER;
static pthread_mutex_t journal = PTHREAD_MUTEX_INITIALIZER;

static void both(pthread_mutex_t *first, pthread_mutex_t *second)
{
    pthread_mutex_lock(first);
    pthread_mutex_lock(second);
    pthread_mutex_unlock(second);
    pthread_mutex_unlock(first);
}

int main(void)
{
    both(&pool, &journal);
    puts("before");
    fflush(stdout);
    both(&journal, &pool);
    puts("after");
    return 0;
}
