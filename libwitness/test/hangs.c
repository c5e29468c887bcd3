/*
 * Two threads that wait for one another. Words say how: `new`, orders that weren't seen before; `known`, orders that
 * were; `self`, a thread that waits for a lock of its own; `short`, one of them gives up after 0.3 s; `long`, it does after
 * 3 s, and has asked first.
 */
#include <pthread.h>
#include <stdio.h>
#include <string.h>
#include <time.h>
#include <unistd.h>

static pthread_mutex_t pool = PTHREAD_MUTEX_INITIALIZER;
static pthread_rwlock_t journal = PTHREAD_RWLOCK_INITIALIZER;
static pthread_barrier_t barrier;
static int meets, gives_up, comes_late;

static void meet(void)
{
    if (meets)
        pthread_barrier_wait(&barrier);
}

static void *commit(void *unused)
{
    struct timespec limit;
    pthread_mutex_lock(&pool);
    meet();
    clock_gettime(CLOCK_REALTIME, &limit);
    limit.tv_nsec += 300000000;
    limit.tv_sec += limit.tv_nsec / 1000000000 + (comes_late ? 3 : 0);
    limit.tv_nsec %= 1000000000;
    if ((gives_up ? pthread_rwlock_timedwrlock(&journal, &limit) : pthread_rwlock_wrlock(&journal)) == 0)
        pthread_rwlock_unlock(&journal);
    pthread_mutex_unlock(&pool);
    return unused;
}

static void *checkpoint(void *unused)
{
    pthread_rwlock_rdlock(&journal);
    meet();
    if (comes_late)
        usleep(500000);
    pthread_mutex_lock(&pool);
    pthread_mutex_unlock(&pool);
    pthread_rwlock_unlock(&journal);
    return unused;
}

int main(int count, char **words)
{
    const char *word = count > 1 ? words[1] : "new";
    pthread_t first, second;
    if (strcmp(word, "self") == 0) {
        pthread_rwlock_wrlock(&journal);
        pthread_mutex_lock(&pool);
        pthread_mutex_lock(&pool);
    }
    if (strcmp(word, "known") == 0) {
        commit(NULL);
        checkpoint(NULL);
    }
    comes_late = strcmp(word, "long") == 0;
    gives_up = comes_late || strcmp(word, "short") == 0;
    pthread_barrier_init(&barrier, NULL, 2);
    meets = 1;
    pthread_create(&first, NULL, commit, NULL);
    pthread_create(&second, NULL, checkpoint, NULL);
    pthread_join(first, NULL);
    pthread_join(second, NULL);
    puts("ended");
    return 0;
}
