/*
 * pairs DEPTH THREADS ROUNDS: each thread takes so many locks, one inside the other, and releases them, over and over.
 * It writes the nanoseconds of processor time that a pair of lock and unlock takes. Each thread has its own locks.
 */
#include <pthread.h>
#include <stdio.h>
#include <stdlib.h>
#include <time.h>

enum { DEEPEST = 32, MOST = 64 };

static int depth, rounds;
static pthread_barrier_t begin, end;

/* The nanoseconds that this thread has had. The clock of the process lacks what other threads have had since a tick. */
static double nanoseconds(void)
{
    struct timespec time;
    clock_gettime(CLOCK_THREAD_CPUTIME_ID, &time);
    return (double)time.tv_sec * 1e9 + (double)time.tv_nsec;
}

static void *run(void *took)
{
    pthread_mutex_t *locks = aligned_alloc(64, DEEPEST * 64);
    for (int i = 0; i < depth; i++)
        pthread_mutex_init(&locks[i], NULL);
    pthread_barrier_wait(&begin);
    double from = nanoseconds();
    for (int round = 0; round < rounds; round++) {
        for (int i = 0; i < depth; i++)
            pthread_mutex_lock(&locks[i]);
        for (int i = depth; i-- > 0;)
            pthread_mutex_unlock(&locks[i]);
    }
    *(double *)took = nanoseconds() - from;
    pthread_barrier_wait(&end);
    return NULL;
}

int main(int count, char **words)
{
    static double took[MOST];
    double all = 0;
    int threads = count == 4 ? atoi(words[2]) : 0;
    if (threads < 1 || threads > MOST)
        return 2;
    depth = atoi(words[1]);
    rounds = atoi(words[3]);
    if (depth < 1 || depth > DEEPEST)
        return 2;
    pthread_barrier_init(&begin, NULL, (unsigned)threads + 1);
    pthread_barrier_init(&end, NULL, (unsigned)threads + 1);
    for (int i = 0; i < threads; i++) {
        pthread_t thread;
        if (pthread_create(&thread, NULL, run, &took[i]) != 0)
            return 1;
    }
    pthread_barrier_wait(&begin);
    pthread_barrier_wait(&end);
    for (int i = 0; i < threads; i++)
        all += took[i];
    printf("%.1f\n", all / rounds / depth / threads);
    return 0;
}
