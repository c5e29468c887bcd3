/* Locks that are taken by a helper: its line says nothing, its callers do. */
#include <pthread.h>
#include <stdlib.h>
static pthread_mutex_t pool = PTHREAD_MUTEX_INITIALIZER, journal = PTHREAD_MUTEX_INITIALIZER;

/* What stands behind the call keeps it from being a jump. */
static __attribute__((noinline)) void cache_enter(pthread_mutex_t *mutex)
{
    pthread_mutex_lock(mutex);
    __asm__ volatile("");
}

static void cache_leave(pthread_mutex_t *mutex)
{
    pthread_mutex_unlock(mutex);
}

static __attribute__((noinline)) void transfer(void)
{
    cache_enter(&pool);
    cache_enter(&journal);
    cache_leave(&journal);
    cache_leave(&pool);
}

static __attribute__((noinline)) void audit(void)
{
    cache_enter(&journal);
    cache_enter(&pool);
    cache_leave(&pool);
    cache_leave(&journal);
}

/* WORDS: before that it is called so often from one place that its callers are looked at no more. */
int main(int words, char **word)
{
    for (int times = words > 1 ? atoi(word[1]) : 0; times > 0; times--) {
        cache_enter(&pool);
        cache_leave(&pool);
    }
    transfer();
    audit();
    return 0;
}
