/* A thread that holds a lock waits for another one for over a second, in a known order; meanwhile it is shown what is known. */
#include <libwitness.h>
#include <pthread.h>
#include <unistd.h>

static pthread_mutex_t pool = PTHREAD_MUTEX_INITIALIZER, journal = PTHREAD_MUTEX_INITIALIZER;

static void *both(void *unused)
{
    pthread_mutex_lock(&pool);
    pthread_mutex_lock(&journal);
    pthread_mutex_unlock(&journal);
    pthread_mutex_unlock(&pool);
    return unused;
}

int main(void)
{
    pthread_t thread;
    witness_start();
    both(NULL);
    pthread_mutex_lock(&journal);
    pthread_create(&thread, NULL, both, NULL);
    usleep(1800000);
    witness_show(1);
    pthread_mutex_unlock(&journal);
    pthread_join(thread, NULL);
    return 0;
}
