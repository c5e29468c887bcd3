/* A mutex that one thread acquires and another one releases. Two locks are always acquired in one order. */
#include <pthread.h>

static pthread_mutex_t ticket = PTHREAD_MUTEX_INITIALIZER;
static pthread_mutex_t pool = PTHREAD_MUTEX_INITIALIZER;
static pthread_mutex_t journal = PTHREAD_MUTEX_INITIALIZER;

static void *take(void *unused)
{
    pthread_mutex_lock(&ticket);
    return unused;
}

int main(void)
{
    pthread_t taker;
    pthread_create(&taker, NULL, take, NULL);
    pthread_join(taker, NULL);
    pthread_mutex_unlock(&ticket);
    pthread_mutex_lock(&pool);
    pthread_mutex_lock(&journal);
    pthread_mutex_unlock(&journal);
    pthread_mutex_unlock(&pool);
    return 0;
}
