/* Three hundred threads that hold locks at once, and eleven hundred types behind one another. */
#include <pthread.h>
#include <stdlib.h>
#include "test/many.h"

enum { THREADS = 300, LOCKS = 1100 };
static pthread_mutex_t first = PTHREAD_MUTEX_INITIALIZER;
static pthread_mutex_t own[THREADS][2];
static pthread_barrier_t meeting;

static void *hold(void *argument)
{
    pthread_mutex_t *pair = argument;
    pthread_mutex_lock(&pair[0]);
    pthread_mutex_lock(&pair[1]);
    pthread_barrier_wait(&meeting);
    pthread_mutex_unlock(&pair[1]);
    pthread_mutex_unlock(&pair[0]);
    return NULL;
}

int main(void)
{
    pthread_t threads[THREADS];
    pthread_attr_t attributes;
    pthread_attr_init(&attributes);
    pthread_attr_setstacksize(&attributes, 65536);
    pthread_barrier_init(&meeting, NULL, THREADS);
    for (int i = 0; i < THREADS; i++) {
        pthread_mutex_init(&own[i][0], NULL);
        pthread_mutex_init(&own[i][1], NULL);
        if (pthread_create(&threads[i], &attributes, hold, own[i]) != 0)
            return 1;
    }
    for (int i = 0; i < THREADS; i++)
        pthread_join(threads[i], NULL);
    for (int i = 0; i < LOCKS; i++) {
        pthread_mutex_lock(&first);
        pthread_mutex_lock(many[i]);
        pthread_mutex_unlock(many[i]);
        pthread_mutex_unlock(&first);
    }
    pthread_mutex_lock(many[0]);
    pthread_mutex_lock(&first);
    pthread_mutex_unlock(&first);
    pthread_mutex_unlock(many[0]);
    return 0;
}
