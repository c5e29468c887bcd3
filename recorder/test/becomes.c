/*
 * Memory that was a mutex becomes a rwlock, by an assignment: no call tells so. It is taken for that mutex, and its readers for
 * holders of it. A reversal of other locks is reported all the same.
 */
#include <pthread.h>

static pthread_mutex_t journal = PTHREAD_MUTEX_INITIALIZER, pool = PTHREAD_MUTEX_INITIALIZER;
static pthread_mutex_t ledger = PTHREAD_MUTEX_INITIALIZER;
static union {
    pthread_mutex_t mutex;
    pthread_rwlock_t rwlock;
} room = {.mutex = PTHREAD_MUTEX_INITIALIZER};

static void *commit(void *unused)
{
    pthread_mutex_lock(&room.mutex);
    pthread_mutex_unlock(&room.mutex);
    room.rwlock = (pthread_rwlock_t)PTHREAD_RWLOCK_INITIALIZER;
    pthread_mutex_lock(&pool);
    pthread_rwlock_rdlock(&room.rwlock);
    pthread_rwlock_unlock(&room.rwlock);
    pthread_mutex_lock(&journal);
    pthread_mutex_unlock(&journal);
    pthread_mutex_unlock(&pool);
    return unused;
}

static void *checkpoint(void *unused)
{
    pthread_rwlock_rdlock(&room.rwlock);
    pthread_mutex_lock(&ledger);
    pthread_mutex_unlock(&ledger);
    pthread_rwlock_unlock(&room.rwlock);
    pthread_mutex_lock(&journal);
    pthread_mutex_lock(&pool);
    pthread_mutex_unlock(&pool);
    pthread_mutex_unlock(&journal);
    return unused;
}

int main(void)
{
    pthread_t thread;
    pthread_create(&thread, NULL, commit, NULL);
    pthread_join(thread, NULL);
    pthread_create(&thread, NULL, checkpoint, NULL);
    return pthread_join(thread, NULL);
}
