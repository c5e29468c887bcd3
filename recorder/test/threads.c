/* Four hundred threads that come and go, a few at a time. */
#include <pthread.h>

static pthread_mutex_t pool = PTHREAD_MUTEX_INITIALIZER;
static pthread_mutex_t journal = PTHREAD_MUTEX_INITIALIZER;

static void *commit(void *unused)
{
    for (int i = 0; i < 3; i++) {
        pthread_mutex_lock(&pool);
        pthread_mutex_lock(&journal);
        pthread_mutex_unlock(&journal);
        pthread_mutex_unlock(&pool);
    }
    return unused;
}

int main(void)
{
    for (int round = 0; round < 50; round++) {
        pthread_t threads[8];
        for (int i = 0; i < 8; i++)
            pthread_create(&threads[i], NULL, commit, NULL);
        for (int i = 0; i < 8; i++)
            pthread_join(threads[i], NULL);
    }
    return 0;
}
