/* A library whose `work` takes two locks, FIRST before SECOND, by the names that it is compiled with. `back` takes them the other way round. */
#include <pthread.h>

static pthread_mutex_t FIRST = PTHREAD_MUTEX_INITIALIZER, SECOND = PTHREAD_MUTEX_INITIALIZER;

static void both(pthread_mutex_t *one, pthread_mutex_t *other)
{
    pthread_mutex_lock(one);
    pthread_mutex_lock(other);
    pthread_mutex_unlock(other);
    pthread_mutex_unlock(one);
}

void work(void)
{
    both(&FIRST, &SECOND);
}

void back(void)
{
    both(&SECOND, &FIRST);
}
