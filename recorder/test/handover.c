/* A mutex that one thread locks and another unlocks, as if it were a semaphore; the first then takes others. */
#include <pthread.h>

static pthread_mutex_t baton = PTHREAD_MUTEX_INITIALIZER;
static pthread_mutex_t pool = PTHREAD_MUTEX_INITIALIZER;
static pthread_mutex_t journal = PTHREAD_MUTEX_INITIALIZER;
static pthread_mutex_t table = PTHREAD_MUTEX_INITIALIZER;

static void *unlock(void *unused)
{
    pthread_mutex_lock(&journal);
    pthread_mutex_unlock(&baton);
    pthread_mutex_unlock(&journal);
    return unused;
}

static void *reverse(void *unused)
{
    pthread_mutex_lock(&table);
    pthread_mutex_lock(&baton);
    pthread_mutex_unlock(&baton);
    pthread_mutex_unlock(&table);
    return unused;
}

/* What another thread has unlocked by then isn't held: no order begins with it. */
static void lose(void)
{
    pthread_t thread;
    pthread_mutex_lock(&baton);
    pthread_create(&thread, NULL, unlock, NULL);
    pthread_join(thread, NULL);
    pthread_mutex_lock(&table);
    pthread_mutex_unlock(&table);
    pthread_create(&thread, NULL, reverse, NULL);
    pthread_join(thread, NULL);
}

int main(void)
{
    for (int i = 0; i < 3; i++) {
        pthread_t thread;
        pthread_mutex_lock(&baton);
        pthread_mutex_lock(&pool);
        pthread_mutex_unlock(&pool);
        pthread_create(&thread, NULL, unlock, NULL);
        /* This waits until the other thread has unlocked it. */
        pthread_mutex_lock(&baton);
        pthread_mutex_unlock(&baton);
        pthread_join(thread, NULL);
        pthread_mutex_lock(&pool);
        pthread_mutex_lock(&baton);
        pthread_mutex_unlock(&baton);
        pthread_mutex_unlock(&pool);
    }
    lose();
    return 0;
}
