/* Two threads, one after the other, take two mutexes in opposite orders. Nothing hangs. */
#include <pthread.h>

static pthread_mutex_t pool = PTHREAD_MUTEX_INITIALIZER;
static pthread_mutex_t journal = PTHREAD_MUTEX_INITIALIZER;

static void *commit(void *unused)
{
    pthread_mutex_lock(&pool);
    pthread_mutex_lock(&journal);
    pthread_mutex_unlock(&journal);
    pthread_mutex_unlock(&pool);
    return unused;
}

static void *checkpoint(void *unused)
{
    pthread_mutex_lock(&journal);
    pthread_mutex_lock(&pool);
    pthread_mutex_unlock(&pool);
    pthread_mutex_unlock(&journal);
    return unused;
}

int main(void)
{
    pthread_t thread;
    pthread_create(&thread, NULL, commit, NULL);
    pthread_join(thread, NULL);
    pthread_create(&thread, NULL, checkpoint, NULL);
    pthread_join(thread, NULL);
    return 0;
}
