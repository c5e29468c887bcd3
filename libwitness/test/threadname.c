/* A thread whose name a terminal would take for its own takes two mutexes in both orders. */
#define _GNU_SOURCE
#include <pthread.h>

static pthread_mutex_t pool = PTHREAD_MUTEX_INITIALIZER, journal = PTHREAD_MUTEX_INITIALIZER;

static void take(pthread_mutex_t *first, pthread_mutex_t *second)
{
    pthread_mutex_lock(first);
    pthread_mutex_lock(second);
    pthread_mutex_unlock(second);
    pthread_mutex_unlock(first);
}

int main(void)
{
    pthread_setname_np(pthread_self(), "\033[31m\nwitness:x");
    take(&pool, &journal);
    take(&journal, &pool);
    return 0;
}
