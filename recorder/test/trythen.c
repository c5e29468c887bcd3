/* A chain that came about by a try, and then by a request from a line that was met before: the request is new. */
#include <pthread.h>

static pthread_mutex_t pool = PTHREAD_MUTEX_INITIALIZER;
static pthread_mutex_t journal = PTHREAD_MUTEX_INITIALIZER;
static pthread_mutex_t other = PTHREAD_MUTEX_INITIALIZER;

static void hold(pthread_mutex_t *mutex)
{
    pthread_mutex_lock(mutex);
}

int main(void)
{
    for (int i = 0; i < 2; i++) {
        hold(&pool);
        if (i == 0)
            pthread_mutex_trylock(&journal);
        else
            hold(&journal);
        hold(&other);
        pthread_mutex_unlock(&other);
        pthread_mutex_unlock(&journal);
        pthread_mutex_unlock(&pool);
    }
    hold(&journal);
    hold(&pool);
    pthread_mutex_unlock(&pool);
    pthread_mutex_unlock(&journal);
    return 0;
}
