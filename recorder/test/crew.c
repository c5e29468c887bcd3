/* A deadlock of two threads that have names: one was given it by itself, the other by prctl. */
#define _GNU_SOURCE
#include <pthread.h>
#include <sys/prctl.h>

static pthread_mutex_t pool = PTHREAD_MUTEX_INITIALIZER;
static pthread_mutex_t journal = PTHREAD_MUTEX_INITIALIZER;
static pthread_barrier_t meeting;

static void *write_back(void *unused)
{
    pthread_setname_np(pthread_self(), "write back");
    pthread_mutex_lock(&pool);
    pthread_barrier_wait(&meeting);
    pthread_mutex_lock(&journal);
    return unused;
}

static void *flush(void *unused)
{
    prctl(PR_SET_NAME, "flusher");
    pthread_mutex_lock(&journal);
    pthread_barrier_wait(&meeting);
    pthread_mutex_lock(&pool);
    return unused;
}

int main(void)
{
    pthread_t first, second;
    pthread_barrier_init(&meeting, NULL, 2);
    pthread_create(&first, NULL, write_back, NULL);
    pthread_create(&second, NULL, flush, NULL);
    pthread_join(first, NULL);
    return 0;
}
