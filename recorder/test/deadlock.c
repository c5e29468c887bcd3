/* Both orders were seen before, one after the other; then two threads really wait for one another. */
#include <pthread.h>

static pthread_mutex_t pool = PTHREAD_MUTEX_INITIALIZER;
static pthread_mutex_t journal = PTHREAD_MUTEX_INITIALIZER;
static pthread_barrier_t *meeting;

static void *commit(void *unused)
{
    pthread_mutex_lock(&pool);
    if (meeting)
        pthread_barrier_wait(meeting);
    pthread_mutex_lock(&journal);
    pthread_mutex_unlock(&journal);
    pthread_mutex_unlock(&pool);
    return unused;
}

static void *checkpoint(void *unused)
{
    pthread_mutex_lock(&journal);
    if (meeting)
        pthread_barrier_wait(meeting);
    pthread_mutex_lock(&pool);
    pthread_mutex_unlock(&pool);
    pthread_mutex_unlock(&journal);
    return unused;
}

int main(void)
{
    pthread_t first, second;
    pthread_barrier_t barrier;
    pthread_create(&first, NULL, commit, NULL);
    pthread_join(first, NULL);
    pthread_create(&second, NULL, checkpoint, NULL);
    pthread_join(second, NULL);
    pthread_barrier_init(&barrier, NULL, 2);
    meeting = &barrier;
    pthread_create(&first, NULL, commit, NULL);
    pthread_create(&second, NULL, checkpoint, NULL);
    pthread_join(first, NULL);
    pthread_join(second, NULL);
    return 0;
}
