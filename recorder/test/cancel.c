/* A thread is cancelled while it waits for a condition: it has the mutex again, and its handler unlocks it. */
#include <pthread.h>

static pthread_mutex_t queue = PTHREAD_MUTEX_INITIALIZER;
static pthread_mutex_t table = PTHREAD_MUTEX_INITIALIZER;
static pthread_cond_t never = PTHREAD_COND_INITIALIZER;
static pthread_cond_t ready = PTHREAD_COND_INITIALIZER;
static int waiting;

static void unlock(void *mutex)
{
    pthread_mutex_lock(&table);
    pthread_mutex_unlock(&table);
    pthread_mutex_unlock(mutex);
}

static void *wait(void *unused)
{
    pthread_mutex_lock(&queue);
    pthread_cleanup_push(unlock, &queue);
    waiting = 1;
    pthread_cond_signal(&ready);
    for (;;)
        pthread_cond_wait(&never, &queue);
    pthread_cleanup_pop(1);
    return unused;
}

int main(void)
{
    pthread_t thread;
    pthread_create(&thread, NULL, wait, NULL);
    pthread_mutex_lock(&queue);
    while (!waiting)
        pthread_cond_wait(&ready, &queue);
    pthread_mutex_unlock(&queue);
    pthread_cancel(thread);
    pthread_join(thread, NULL);
    pthread_mutex_lock(&table);
    pthread_mutex_lock(&queue);
    pthread_mutex_unlock(&queue);
    pthread_mutex_unlock(&table);
    return 0;
}
