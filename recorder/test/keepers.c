/*
 * Threads wait for a condition, again and again, each with a lock of its own held; others ask for these locks meanwhile,
 * and signal. So requests for the mutex are written while their threads wait.
 */
#include <pthread.h>
#include <stdlib.h>
#include <time.h>

enum { KEEPERS = 4, ASKERS = 4, ROUNDS = 400 };

static pthread_mutex_t kept[KEEPERS], inner = PTHREAD_MUTEX_INITIALIZER;
static pthread_mutex_t mine[ASKERS];
static pthread_cond_t woken = PTHREAD_COND_INITIALIZER;

static void *keep(void *lock)
{
    for (int round = 0; round < ROUNDS; round++) {
        struct timespec limit;
        pthread_mutex_lock(lock);
        pthread_mutex_lock(&inner);
        clock_gettime(CLOCK_REALTIME, &limit);
        limit.tv_nsec += 500000;
        if (limit.tv_nsec >= 1000000000) {
            limit.tv_sec++;
            limit.tv_nsec -= 1000000000;
        }
        pthread_cond_timedwait(&woken, &inner, &limit);
        pthread_mutex_unlock(&inner);
        pthread_mutex_unlock(lock);
    }
    return NULL;
}

static void *ask(void *lock)
{
    unsigned seed = (unsigned)((pthread_mutex_t *)lock - mine);
    for (int round = 0; round < ROUNDS; round++) {
        pthread_mutex_t *wanted = &kept[rand_r(&seed) % KEEPERS];
        pthread_mutex_lock(lock);
        pthread_mutex_lock(wanted);
        pthread_mutex_unlock(wanted);
        pthread_mutex_unlock(lock);
        if (round % 2 == 0)
            pthread_cond_broadcast(&woken);
    }
    return NULL;
}

int main(void)
{
    pthread_t threads[KEEPERS + ASKERS];
    for (int i = 0; i < KEEPERS; i++)
        pthread_create(&threads[i], NULL, keep, &kept[i]);
    for (int i = 0; i < ASKERS; i++)
        pthread_create(&threads[KEEPERS + i], NULL, ask, &mine[i]);
    for (int i = 0; i < KEEPERS + ASKERS; i++)
        pthread_join(threads[i], NULL);
    return 0;
}
