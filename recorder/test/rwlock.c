/* A reader asks for a mutex behind a rwlock, a writer for the rwlock behind the mutex. Readers may read twice. */
#include <pthread.h>

static pthread_rwlock_t routes = PTHREAD_RWLOCK_INITIALIZER;
static pthread_mutex_t queue = PTHREAD_MUTEX_INITIALIZER;

static void *reader(void *unused)
{
    pthread_rwlock_rdlock(&routes);
    pthread_rwlock_rdlock(&routes);
    pthread_mutex_lock(&queue);
    pthread_mutex_unlock(&queue);
    pthread_rwlock_unlock(&routes);
    pthread_rwlock_unlock(&routes);
    return unused;
}

static void *writer(void *unused)
{
    pthread_mutex_lock(&queue);
    pthread_rwlock_wrlock(&routes);
    pthread_rwlock_unlock(&routes);
    pthread_mutex_unlock(&queue);
    return unused;
}

int main(void)
{
    pthread_t thread;
    pthread_create(&thread, NULL, reader, NULL);
    pthread_join(thread, NULL);
    pthread_create(&thread, NULL, writer, NULL);
    pthread_join(thread, NULL);
    return 0;
}
