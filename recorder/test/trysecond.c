/* A try doesn't wait, so it has no order: neither where it succeeds nor where it fails. */
#include <pthread.h>

static pthread_mutex_t pool = PTHREAD_MUTEX_INITIALIZER;
static pthread_mutex_t journal = PTHREAD_MUTEX_INITIALIZER;
static pthread_mutex_t other = PTHREAD_MUTEX_INITIALIZER;

int main(void)
{
    pthread_mutex_lock(&pool);
    pthread_mutex_trylock(&journal);
    if (pthread_mutex_trylock(&journal) == 0)
        return 1;
    pthread_mutex_lock(&other);
    pthread_mutex_unlock(&other);
    pthread_mutex_unlock(&journal);
    pthread_mutex_unlock(&pool);
    pthread_mutex_lock(&journal);
    pthread_mutex_lock(&pool);
    pthread_mutex_unlock(&pool);
    pthread_mutex_unlock(&journal);
    return 0;
}
