/* Four threads that want the same two locks all the time. */
#include <pthread.h>

static pthread_mutex_t pool = PTHREAD_MUTEX_INITIALIZER;
static pthread_mutex_t journal = PTHREAD_MUTEX_INITIALIZER;

static void *commit(void *unused)
{
    for (int i = 0; i < 3000; i++) {
        pthread_mutex_lock(&pool);
        pthread_mutex_lock(&journal);
        pthread_mutex_unlock(&journal);
        pthread_mutex_unlock(&pool);
    }
    return unused;
}

int main(void)
{
    pthread_t threads[4];
    for (int i = 0; i < 4; i++)
        pthread_create(&threads[i], NULL, commit, NULL);
    for (int i = 0; i < 4; i++)
        pthread_join(threads[i], NULL);
    return 0;
}
