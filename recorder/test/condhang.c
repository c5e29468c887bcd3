/*
 * Hangs: main waits for the condition with `outer` held. It is woken, and asks for `inner` again, which the other thread
 * has; that one asks for `outer`.
 */
#include <pthread.h>
#include <unistd.h>

static pthread_mutex_t inner = PTHREAD_MUTEX_INITIALIZER;
static pthread_mutex_t outer = PTHREAD_MUTEX_INITIALIZER;
static pthread_cond_t woken = PTHREAD_COND_INITIALIZER;

static void *wake(void *none)
{
    usleep(100000);
    pthread_mutex_lock(&inner);
    pthread_cond_signal(&woken);
    pthread_mutex_lock(&outer);
    pthread_mutex_unlock(&outer);
    pthread_mutex_unlock(&inner);
    return none;
}

int main(void)
{
    pthread_t thread;
    pthread_create(&thread, NULL, wake, NULL);
    pthread_mutex_lock(&inner);
    pthread_mutex_lock(&outer);
    pthread_cond_wait(&woken, &inner);
    pthread_mutex_unlock(&inner);
    pthread_mutex_unlock(&outer);
    return pthread_join(thread, NULL);
}
