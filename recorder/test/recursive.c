/* Recursive mutexes of each kind, with a lock between their acquisitions. */
#define _GNU_SOURCE
#include <pthread.h>

static pthread_mutex_t listed = PTHREAD_RECURSIVE_MUTEX_INITIALIZER_NP;
static pthread_mutex_t plain = PTHREAD_MUTEX_INITIALIZER;

int main(void)
{
    pthread_mutex_t made;
    pthread_mutexattr_t attributes;
    pthread_mutexattr_init(&attributes);
    pthread_mutexattr_settype(&attributes, PTHREAD_MUTEX_RECURSIVE);
    pthread_mutex_init(&made, &attributes);
    for (int i = 0; i < 3; i++) {
        pthread_mutex_lock(&listed);
        pthread_mutex_lock(&made);
        pthread_mutex_lock(&listed);
        pthread_mutex_trylock(&made);
        pthread_mutex_lock(&plain);
        pthread_mutex_lock(&made);
        for (int held = 0; held < 3; held++)
            pthread_mutex_unlock(&made);
        pthread_mutex_unlock(&plain);
        pthread_mutex_unlock(&listed);
        pthread_mutex_unlock(&listed);
    }
    pthread_mutex_destroy(&made);
    return 0;
}
