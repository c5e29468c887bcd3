/*
 * From the first line on the system gives no further memory: the verifier can't be made, and the program goes on. What it
 * asserts is answered all the same.
 */
#include <libwitness.h>
#include <pthread.h>
#include <stdio.h>
#include <sys/resource.h>

static pthread_mutex_t pool = PTHREAD_MUTEX_INITIALIZER;
static pthread_mutex_t journal = PTHREAD_MUTEX_INITIALIZER;

static void both(pthread_mutex_t *first, pthread_mutex_t *second)
{
    pthread_mutex_lock(first);
    pthread_mutex_lock(second);
    pthread_mutex_unlock(second);
    pthread_mutex_unlock(first);
}

int main(void)
{
    struct rlimit none = {1 << 20, RLIM_INFINITY};
    int awake = witness_start();
    setrlimit(RLIMIT_AS, &none);
    for (int i = 0; i < 3; i++) {
        both(&pool, &journal);
        both(&journal, &pool);
    }
    printf("%d %d %d %d\n", awake, witness_assert(&pool, WITNESS_UNLOCKED), witness_assert(&pool, WITNESS_LOCKED),
        witness_warn("here"));
    return 0;
}
