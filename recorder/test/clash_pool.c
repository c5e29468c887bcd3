#include <pthread.h>

static pthread_mutex_t lock = PTHREAD_MUTEX_INITIALIZER;

void cache_locked(int locked);

void with_pool(int before)
{
    pthread_mutex_lock(&lock);
    if (before) {
        cache_locked(1);
        cache_locked(0);
    }
    pthread_mutex_unlock(&lock);
}
