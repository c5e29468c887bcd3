/*
 * third HOW: one thread takes two locks and is joined, then two others take them the other way, of which the first is gone
 * before the second begins; or, with `timed`, one asks with a time limit first, and without after that.
 */
#include <pthread.h>
#include <semaphore.h>
#include <string.h>
#include <time.h>

static pthread_mutex_t pool = PTHREAD_MUTEX_INITIALIZER, journal = PTHREAD_MUTEX_INITIALIZER;
static pthread_barrier_t meeting;
static sem_t took; /* a thread has taken its locks, and released them */

static void both(pthread_mutex_t *first, pthread_mutex_t *second)
{
    pthread_mutex_lock(first);
    pthread_mutex_lock(second);
    pthread_mutex_unlock(second);
    pthread_mutex_unlock(first);
}

static void *there(void *unused)
{
    both(&pool, &journal);
    return unused;
}

static void *there_and_stay(void *unused)
{
    both(&pool, &journal);
    sem_post(&took);
    pthread_barrier_wait(&meeting);
    return unused;
}

static void *back_and_stay(void *unused)
{
    both(&journal, &pool);
    sem_post(&took);
    pthread_barrier_wait(&meeting);
    return unused;
}

static void *back_for_a_time(void *unused)
{
    struct timespec soon;
    clock_gettime(CLOCK_REALTIME, &soon);
    soon.tv_sec += 5;
    pthread_mutex_lock(&journal);
    if (pthread_mutex_timedlock(&pool, &soon) == 0)
        pthread_mutex_unlock(&pool);
    pthread_mutex_unlock(&journal);
    return back_and_stay(unused);
}

static void run(void *(*function)(void *))
{
    pthread_t thread;
    pthread_create(&thread, NULL, function, NULL);
    pthread_join(thread, NULL);
}

static void run_two(void *(*one)(void *), void *(*other)(void *))
{
    pthread_t first, second;
    pthread_create(&first, NULL, one, NULL);
    sem_wait(&took);
    pthread_create(&second, NULL, other, NULL);
    pthread_join(first, NULL);
    pthread_join(second, NULL);
}

int main(int count, char **words)
{
    pthread_barrier_init(&meeting, NULL, 2);
    sem_init(&took, 0, 0);
    if (count > 1 && strcmp(words[1], "timed") == 0) {
        run_two(there_and_stay, back_for_a_time);
    } else {
        /* Two threads, which are told of, then a third one beside the one that goes back. */
        run(there);
        run(there);
        run_two(there_and_stay, back_and_stay);
    }
    return 0;
}
