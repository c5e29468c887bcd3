/*
 * reread KIND: a thread reads a rwlock twice, where the lock prefers writers (writers), or readers (readers), which is
 * the default (default). Nobody writes in between in this run. Or it asks to read one that prefers writers and that it writes
 * (written), which is refused.
 */
#define _GNU_SOURCE
#include <errno.h>
#include <pthread.h>
#include <string.h>

static pthread_rwlock_t lock;
static pthread_mutex_t first = PTHREAD_MUTEX_INITIALIZER, second = PTHREAD_MUTEX_INITIALIZER;

static void *work(void *written)
{
    int refused = EDEADLK;
    if (written) {
        pthread_rwlock_wrlock(&lock);
        refused = pthread_rwlock_rdlock(&lock);
        pthread_rwlock_unlock(&lock);
    } else {
        pthread_rwlock_rdlock(&lock);
        pthread_rwlock_rdlock(&lock);
        pthread_rwlock_unlock(&lock);
        pthread_rwlock_unlock(&lock);
    }
    pthread_rwlock_wrlock(&lock);
    pthread_rwlock_unlock(&lock);
    pthread_mutex_lock(&first);
    pthread_mutex_lock(&second);
    pthread_mutex_unlock(&second);
    pthread_mutex_unlock(&first);
    return refused == EDEADLK ? NULL : &lock;
}

int main(int count, char **word)
{
    pthread_rwlockattr_t attributes;
    pthread_t thread;
    pthread_rwlockattr_init(&attributes);
    if (count > 1 && strcmp(word[1], "default") != 0)
        pthread_rwlockattr_setkind_np(&attributes, word[1][0] == 'w' ? PTHREAD_RWLOCK_PREFER_WRITER_NONRECURSIVE_NP
                                                                    : PTHREAD_RWLOCK_PREFER_READER_NP);
    pthread_rwlock_init(&lock, &attributes);
    pthread_create(&thread, NULL, work, count > 1 && strcmp(word[1], "written") == 0 ? &lock : NULL);
    void *wrong;
    return pthread_join(thread, &wrong) || wrong;
}
