/*
 * random SEED clean|mixed [turns]: threads that take and release locks of every kind at random, and end. With `turns` each one
 * begins when the one before it has ended, so that each run is like any other.
 *
 * Locks have ranks. A thread that asks for a lock below or beside one that it holds doesn't wait for it for ever: in a
 * clean run it only tries, so that no order is ever reversed; in a mixed one it may wait for a moment.
 */
#define _GNU_SOURCE
#include <pthread.h>
#include <stdbool.h>
#include <stdlib.h>
#include <string.h>
#include <time.h>

enum { THREADS = 4, STEPS = 300, LOCKS = 24, HELD = 6, SHELF = 4 };
enum kind { MUTEX, RECURSIVE, RWLOCK, SPIN };

struct lock {
    enum kind kind;
    union {
        pthread_mutex_t mutex;
        pthread_rwlock_t rwlock;
        pthread_spinlock_t spin;
    };
};

struct thread {
    unsigned seed;
    pthread_mutex_t *shelf; /* its own row */
    int held[HELD]; /* ranks, oldest first */
    bool shared[HELD];
    int count;
};

static struct lock *locks[LOCKS];
static pthread_mutex_t shelf[THREADS][SHELF];
static pthread_cond_t never = PTHREAD_COND_INITIALIZER;
static bool clean;

static int below(struct thread *thread, int limit)
{
    return rand_r(&thread->seed) % limit;
}

/* Neighbours have one type: they are made at one line. */
static void make_pair(struct lock **pair, enum kind kind)
{
    pthread_mutexattr_t recursive;
    pthread_mutexattr_init(&recursive);
    pthread_mutexattr_settype(&recursive, PTHREAD_MUTEX_RECURSIVE);
    for (int i = 0; i < 2; i++) {
        pair[i] = malloc(sizeof **pair);
        pair[i]->kind = kind;
        switch (kind) {
        case MUTEX: pthread_mutex_init(&pair[i]->mutex, NULL); break;
        case RECURSIVE: pthread_mutex_init(&pair[i]->mutex, &recursive); break;
        case RWLOCK: pthread_rwlock_init(&pair[i]->rwlock, NULL); break;
        case SPIN: pthread_spin_init(&pair[i]->spin, 0); break;
        }
    }
}

static void make_locks(void)
{
    make_pair(&locks[0], MUTEX);
    make_pair(&locks[2], RWLOCK);
    make_pair(&locks[4], MUTEX);
    make_pair(&locks[6], RECURSIVE);
    make_pair(&locks[8], RWLOCK);
    make_pair(&locks[10], MUTEX);
    make_pair(&locks[12], RECURSIVE);
    make_pair(&locks[14], MUTEX);
    make_pair(&locks[16], RWLOCK);
    make_pair(&locks[18], MUTEX);
    make_pair(&locks[20], RECURSIVE);
    make_pair(&locks[22], SPIN);
}

static struct timespec soon(void)
{
    struct timespec limit;
    clock_gettime(CLOCK_REALTIME, &limit);
    limit.tv_nsec += 300000;
    if (limit.tv_nsec >= 1000000000) {
        limit.tv_nsec -= 1000000000;
        limit.tv_sec++;
    }
    return limit;
}

static bool got_rwlock(pthread_rwlock_t *lock, bool shared, int way)
{
    struct timespec limit = soon();
    switch (way) {
    case 0: return (shared ? pthread_rwlock_tryrdlock(lock) : pthread_rwlock_trywrlock(lock)) == 0;
    case 1: return (shared ? pthread_rwlock_timedrdlock(lock, &limit) : pthread_rwlock_timedwrlock(lock, &limit)) == 0;
    default: return (shared ? pthread_rwlock_rdlock(lock) : pthread_rwlock_wrlock(lock)) == 0;
    }
}

static bool got_mutex(pthread_mutex_t *mutex, int way)
{
    struct timespec limit = soon();
    switch (way) {
    case 0: return pthread_mutex_trylock(mutex) == 0;
    case 1: return pthread_mutex_timedlock(mutex, &limit) == 0;
    default: return pthread_mutex_lock(mutex) == 0;
    }
}

static bool got(struct lock *lock, bool shared, int way)
{
    switch (lock->kind) {
    case RWLOCK: return got_rwlock(&lock->rwlock, shared, way);
    case SPIN: return way == 2 ? pthread_spin_lock(&lock->spin) == 0 : pthread_spin_trylock(&lock->spin) == 0;
    default: return got_mutex(&lock->mutex, way);
    }
}

static void release(struct thread *thread, int at)
{
    struct lock *lock = locks[thread->held[at]];
    thread->count--;
    memmove(&thread->held[at], &thread->held[at + 1], (size_t)(thread->count - at) * sizeof *thread->held);
    memmove(&thread->shared[at], &thread->shared[at + 1], (size_t)(thread->count - at) * sizeof *thread->shared);
    switch (lock->kind) {
    case RWLOCK: pthread_rwlock_unlock(&lock->rwlock); break;
    case SPIN: pthread_spin_unlock(&lock->spin); break;
    default: pthread_mutex_unlock(&lock->mutex); break;
    }
}

static void acquire(struct thread *thread)
{
    int rank = below(thread, LOCKS), way = below(thread, 5) == 0 ? below(thread, 2) : 2;
    struct lock *lock = locks[rank];
    bool shared = lock->kind == RWLOCK && below(thread, 2);
    for (int i = 0; i < thread->count; i++) {
        bool again = thread->held[i] == rank
            && (lock->kind == RECURSIVE || (lock->kind == RWLOCK && shared && thread->shared[i]));
        if (thread->held[i] == rank && !again)
            return;
        if (!again && thread->held[i] / 2 >= rank / 2)
            way = clean ? 0 : below(thread, 2);
    }
    if (!got(lock, shared, way))
        return;
    thread->held[thread->count] = rank;
    thread->shared[thread->count] = shared;
    thread->count++;
}

/* Waits for what doesn't come, by the mutex that was taken last. */
static void wait_in_vain(struct thread *thread)
{
    int rank = thread->count ? thread->held[thread->count - 1] : 0;
    struct timespec limit = soon();
    if (thread->count == 0 || locks[rank]->kind != MUTEX)
        return;
    for (int i = 0; i < thread->count - 1; i++)
        if (thread->held[i] / 2 >= rank / 2)
            return;
    pthread_cond_timedwait(&never, &locks[rank]->mutex, &limit);
}

/* Locks that come and go behind all others, in the heap and in a variable. */
static void come_and_go(struct thread *thread)
{
    pthread_mutex_t *own = &thread->shelf[below(thread, SHELF)];
    pthread_mutex_t *mutex = malloc(sizeof *mutex);
    pthread_mutex_init(mutex, NULL);
    pthread_mutex_lock(mutex);
    pthread_mutex_unlock(mutex);
    pthread_mutex_destroy(mutex);
    free(mutex);
    pthread_mutex_lock(own);
    pthread_mutex_unlock(own);
    pthread_mutex_destroy(own);
    pthread_mutex_init(own, NULL);
}

static void *run(void *argument)
{
    struct thread *thread = argument;
    for (int step = 0; step < STEPS; step++) {
        int choice = below(thread, 20);
        if (choice == 0)
            come_and_go(thread);
        else if (choice == 1)
            wait_in_vain(thread);
        else if (thread->count == HELD || (thread->count && choice < 10))
            release(thread, below(thread, thread->count));
        else
            acquire(thread);
    }
    while (thread->count)
        release(thread, below(thread, thread->count));
    return NULL;
}

int main(int count, char **words)
{
    pthread_t ids[THREADS];
    struct thread threads[THREADS] = {0};
    bool turns = count == 4 && strcmp(words[3], "turns") == 0;
    if (count != 3 && !turns)
        return 2;
    clean = strcmp(words[2], "clean") == 0;
    make_locks();
    for (int i = 0; i < THREADS; i++) {
        for (int own = 0; own < SHELF; own++)
            pthread_mutex_init(&shelf[i][own], NULL);
        threads[i].shelf = shelf[i];
        threads[i].seed = (unsigned)(atoi(words[1]) * THREADS + i);
        pthread_create(&ids[i], NULL, run, &threads[i]);
        if (turns)
            pthread_join(ids[i], NULL);
    }
    for (int i = 0; i < THREADS && !turns; i++)
        pthread_join(ids[i], NULL);
    return 0;
}
