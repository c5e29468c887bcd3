/*
 * soak SECONDS: sixty-four threads take locks at random, up to three deep and always in one sequence, with some pairs
 * that were taken the other way round at the start. Each such pair is one report, there is no other, and memory stays
 * as it is from the first quarter of the time on. The last line says how it went; the status is 1 where that isn't so.
 */
#include <libwitness.h>
#include <pthread.h>
#include <stdatomic.h>
#include <stdio.h>
#include <stdlib.h>
#include <string.h>
#include <time.h>
#include <unistd.h>

enum { THREADS = 64, LOCKS = 12, READS = 4, PLANTED = 10, DEEP = 3 };

static pthread_mutex_t mutexes[LOCKS];
static pthread_rwlock_t shared[READS];
static pthread_mutex_t planted[PLANTED][2];
static _Atomic long turns, reports, others;
static _Atomic int stop;

static void reported(const struct witness_report *report, void *data)
{
    (void)data;
    if (report->kind == WITNESS_REVERSAL && strstr(report->text, "\"planted"))
        atomic_fetch_add(&reports, 1);
    else
        atomic_fetch_add(&others, 1);
}

static unsigned drawn(unsigned *seed, unsigned below)
{
    *seed = *seed * 1103515245 + 12345;
    return (*seed >> 16) % below;
}

/* Some mutexes in their sequence, and then perhaps one for readers. */
static void take_some(unsigned *seed)
{
    pthread_mutex_t *taken[DEEP];
    unsigned depth = 1 + drawn(seed, DEEP), count = 0, at = 0;
    while (count < depth && (at += 1 + drawn(seed, LOCKS / 2)) <= LOCKS) {
        taken[count] = &mutexes[at - 1];
        if (drawn(seed, 8) == 0) {
            if (pthread_mutex_trylock(taken[count]) != 0)
                break;
        } else {
            pthread_mutex_lock(taken[count]);
        }
        count++;
    }
    pthread_rwlock_t *lock = drawn(seed, 3) == 0 ? &shared[drawn(seed, READS)] : NULL;
    if (lock && drawn(seed, 4) == 0)
        pthread_rwlock_wrlock(lock);
    else if (lock)
        pthread_rwlock_rdlock(lock);
    if (lock)
        pthread_rwlock_unlock(lock);
    while (count > 0)
        pthread_mutex_unlock(taken[--count]);
}

static void take_pair(pthread_mutex_t *first, pthread_mutex_t *second)
{
    pthread_mutex_lock(first);
    pthread_mutex_lock(second);
    pthread_mutex_unlock(second);
    pthread_mutex_unlock(first);
}

static void *work(void *number)
{
    unsigned seed = (unsigned)(size_t)number;
    while (!atomic_load(&stop)) {
        take_some(&seed);
        if (drawn(&seed, 100) == 0) {
            unsigned pair = drawn(&seed, PLANTED);
            take_pair(&planted[pair][1], &planted[pair][0]);
        }
        atomic_fetch_add(&turns, 1);
    }
    return NULL;
}

/* What the process has in memory, in kilobytes. */
static long memory(void)
{
    long pages = 0;
    FILE *file = fopen("/proc/self/statm", "r");
    if (!file || fscanf(file, "%*d %ld", &pages) != 1)
        pages = -1;
    if (file)
        fclose(file);
    return pages * (sysconf(_SC_PAGESIZE) / 1024);
}

static void wait_for(long milliseconds)
{
    nanosleep(&(struct timespec){milliseconds / 1000, milliseconds % 1000 * 1000000}, NULL);
}

int main(int count, char **words)
{
    int seconds = count > 1 ? atoi(words[1]) : 4;
    pthread_t threads[THREADS];
    if (!witness_start())
        return 2;
    witness_on_report(reported, NULL);
    for (int i = 0; i < PLANTED; i++)
        take_pair(&planted[i][0], &planted[i][1]);
    for (size_t i = 0; i < THREADS; i++)
        pthread_create(&threads[i], NULL, work, (void *)(i + 1));
    wait_for(seconds * 250L);
    long before = memory();
    wait_for(seconds * 750L);
    long grown = memory() - before;
    atomic_store(&stop, 1);
    for (int i = 0; i < THREADS; i++)
        pthread_join(threads[i], NULL);
    printf("%ld turns, %ld planted reports, %ld others, %ld kB at first, %ld kB more\n", turns, reports, others, before,
        grown);
    return !(reports == PLANTED && others == 0 && grown <= 1024 && turns > 0);
}
