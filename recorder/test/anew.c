/* A mutex that is made anew at its place while another thread holds it, as no program should. */
#include <pthread.h>

static pthread_mutex_t pool = PTHREAD_MUTEX_INITIALIZER;
static pthread_mutex_t journal = PTHREAD_MUTEX_INITIALIZER;

static void make(pthread_mutex_t *mutex)
{
    pthread_mutex_init(mutex, NULL);
}

static void *work(void *mutex)
{
    make(mutex);
    pthread_mutex_lock(&journal);
    pthread_mutex_lock(mutex);
    pthread_mutex_unlock(mutex);
    pthread_mutex_unlock(&journal);
    return NULL;
}

int main(void)
{
    pthread_t thread;
    pthread_mutex_t made;
    pthread_create(&thread, NULL, work, &made);
    pthread_join(thread, NULL);
    pthread_mutex_lock(&pool);
    pthread_mutex_lock(&made);
    pthread_create(&thread, NULL, work, &made);
    pthread_join(thread, NULL);
    pthread_mutex_unlock(&pool);
    return 0;
}
