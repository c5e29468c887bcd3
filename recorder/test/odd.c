/* Calls that are refused, and some that POSIX only allows: each has the answer that it has without the recorder. */
#define _GNU_SOURCE
#include <pthread.h>
#include <stdio.h>
#include <string.h>
#include <time.h>

static pthread_mutex_t plain = PTHREAD_MUTEX_INITIALIZER;
static pthread_rwlock_t rwlock = PTHREAD_RWLOCK_INITIALIZER;
static pthread_cond_t condition = PTHREAD_COND_INITIALIZER;
static pthread_mutex_t checking = PTHREAD_ERRORCHECK_MUTEX_INITIALIZER_NP;
static const struct timespec past = {1, 0}, bad = {1, -1};

static void say(const char *what, int answer)
{
    printf("%s: %s\n", what, strerror(answer));
}

static void *other(void *unused)
{
    say("try what another holds", pthread_mutex_trylock(&plain));
    say("wait for it until the past", pthread_mutex_timedlock(&plain, &past));
    say("wait for it by the clock", pthread_mutex_clocklock(&plain, CLOCK_MONOTONIC, &past));
    say("unlock what another holds", pthread_mutex_unlock(&checking));
    say("read what is written", pthread_rwlock_tryrdlock(&rwlock));
    say("write it until the past", pthread_rwlock_timedwrlock(&rwlock, &past));
    return unused;
}

static void *dies(void *mutex)
{
    pthread_mutex_lock(mutex);
    return NULL;
}

static void robust(void)
{
    pthread_t thread;
    pthread_mutex_t mutex;
    pthread_mutexattr_t attributes;
    pthread_mutexattr_init(&attributes);
    pthread_mutexattr_setrobust(&attributes, PTHREAD_MUTEX_ROBUST);
    pthread_mutex_init(&mutex, &attributes);
    pthread_create(&thread, NULL, dies, &mutex);
    pthread_join(thread, NULL);
    say("lock what a dead thread held", pthread_mutex_lock(&mutex));
    say("mend it", pthread_mutex_consistent(&mutex));
    say("unlock it", pthread_mutex_unlock(&mutex));
    say("destroy it", pthread_mutex_destroy(&mutex));
}

int main(void)
{
    pthread_t thread;
    pthread_mutex_t made;
    pthread_mutex_lock(&plain);
    pthread_mutex_lock(&checking);
    pthread_rwlock_wrlock(&rwlock);
    say("lock what checks again", pthread_mutex_lock(&checking));
    say("read what this thread writes", pthread_rwlock_rdlock(&rwlock));
    say("write it again", pthread_rwlock_wrlock(&rwlock));
    say("destroy what is held", pthread_mutex_destroy(&plain));
    say("wait until no time", pthread_cond_timedwait(&condition, &plain, &bad));
    say("wait until the past", pthread_cond_timedwait(&condition, &plain, &past));
    pthread_create(&thread, NULL, other, NULL);
    pthread_join(thread, NULL);
    pthread_rwlock_unlock(&rwlock);
    pthread_mutex_unlock(&checking);
    pthread_mutex_unlock(&plain);
    say("unlock once more", pthread_mutex_unlock(&checking));
    pthread_mutex_init(&made, NULL);
    pthread_mutex_lock(&plain);
    pthread_mutex_lock(&made);
    say("make what is held anew", pthread_mutex_init(&made, NULL));
    pthread_mutex_lock(&made);
    pthread_mutex_unlock(&made);
    pthread_mutex_unlock(&plain);
    say("destroy it", pthread_mutex_destroy(&made));
    robust();
    return 0;
}
