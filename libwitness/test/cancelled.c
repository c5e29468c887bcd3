/*
 * A thread that is to be cancelled asks for a lock, which is reported. To ask for a lock, and to tell of it, is no point at
 * which that happens.
 */
#include <libwitness.h>
#include <pthread.h>
#include <stdio.h>
#include <unistd.h>

static pthread_mutex_t pool = PTHREAD_MUTEX_INITIALIZER, journal = PTHREAD_MUTEX_INITIALIZER;
static int calls;

static void reported(const struct witness_report *report, void *data)
{
    (void)report;
    (void)data;
    calls++;
}

static void both(pthread_mutex_t *first, pthread_mutex_t *second)
{
    pthread_mutex_lock(first);
    pthread_mutex_lock(second);
    pthread_mutex_unlock(second);
    pthread_mutex_unlock(first);
}

static void *work(void *unused)
{
    pthread_cancel(pthread_self());
    both(&journal, &pool);
    calls++;
    pthread_testcancel();
    return unused;
}

int main(void)
{
    pthread_t thread;
    void *result;
    witness_start();
    witness_on_report(reported, NULL);
    both(&pool, &journal);
    pthread_create(&thread, NULL, work, NULL);
    pthread_join(thread, &result);
    printf("%d %s %d\n", calls, result == PTHREAD_CANCELED ? "cancelled" : "not cancelled", pthread_mutex_trylock(&pool));
    return 0;
}
