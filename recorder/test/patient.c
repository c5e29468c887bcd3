/* Two threads ask for one another's mutexes. One of them gives up after three seconds, so that both go on. */
#include <pthread.h>
#include <stdio.h>
#include <time.h>

static pthread_mutex_t pool = PTHREAD_MUTEX_INITIALIZER, journal = PTHREAD_MUTEX_INITIALIZER;
static pthread_barrier_t both_hold;

static void *commit(void *unused)
{
    pthread_mutex_lock(&pool);
    pthread_barrier_wait(&both_hold);
    pthread_mutex_lock(&journal);
    pthread_mutex_unlock(&journal);
    pthread_mutex_unlock(&pool);
    return unused;
}

static void *checkpoint(void *unused)
{
    struct timespec end;
    pthread_mutex_lock(&journal);
    pthread_barrier_wait(&both_hold);
    clock_gettime(CLOCK_REALTIME, &end);
    end.tv_sec += 3;
    if (pthread_mutex_timedlock(&pool, &end) == 0)
        pthread_mutex_unlock(&pool);
    pthread_mutex_unlock(&journal);
    return unused;
}

int main(void)
{
    pthread_t one, other;
    pthread_barrier_init(&both_hold, NULL, 2);
    pthread_create(&one, NULL, commit, NULL);
    pthread_create(&other, NULL, checkpoint, NULL);
    pthread_join(one, NULL);
    pthread_join(other, NULL);
    puts("both went on");
    return 0;
}
