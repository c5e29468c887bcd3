/* A thread waits for a condition while it holds a further lock: the mutex is acquired anew behind that lock. */
#include <pthread.h>

static pthread_mutex_t queue = PTHREAD_MUTEX_INITIALIZER;
static pthread_mutex_t table = PTHREAD_MUTEX_INITIALIZER;
static pthread_cond_t filled = PTHREAD_COND_INITIALIZER;
static int items;

static void *producer(void *unused)
{
    pthread_mutex_lock(&queue);
    items++;
    pthread_cond_signal(&filled);
    pthread_mutex_unlock(&queue);
    return unused;
}

int main(void)
{
    pthread_t thread;
    pthread_mutex_lock(&queue);
    pthread_mutex_lock(&table);
    pthread_create(&thread, NULL, producer, NULL);
    while (items == 0)
        pthread_cond_wait(&filled, &queue);
    pthread_mutex_unlock(&table);
    pthread_mutex_unlock(&queue);
    pthread_join(thread, NULL);
    return 0;
}
