/* Locks on futexes, annotated: a reversal of two of them, and one of a futex lock with a mutex of pthread's. */
#include <linux/futex.h>
#include <pthread.h>
#include <stdatomic.h>
#include <sys/syscall.h>
#include <unistd.h>

#include "witness.h"

/* 0 where it is free, 1 where it is held, 2 where somebody waits. */
struct futex_mutex {
    _Atomic int word;
};

static struct futex_mutex index_lock, log_lock;
static pthread_mutex_t accounts = PTHREAD_MUTEX_INITIALIZER;

static void futex_lock(struct futex_mutex *lock)
{
    int free = 0;
    witness_asked(lock, WITNESS_MUTEX);
    if (!atomic_compare_exchange_strong(&lock->word, &free, 1))
        while (atomic_exchange(&lock->word, 2) != 0)
            syscall(SYS_futex, &lock->word, FUTEX_WAIT_PRIVATE, 2, NULL, NULL, 0);
    witness_acquired(lock);
}

static int futex_trylock(struct futex_mutex *lock)
{
    int free = 0;
    if (!atomic_compare_exchange_strong(&lock->word, &free, 1))
        return 0;
    witness_tried(lock, WITNESS_MUTEX);
    return 1;
}

static void futex_unlock(struct futex_mutex *lock)
{
    witness_released(lock);
    if (atomic_exchange(&lock->word, 0) == 2)
        syscall(SYS_futex, &lock->word, FUTEX_WAKE_PRIVATE, 1, NULL, NULL, 0);
}

static void *count(void *unused)
{
    for (int i = 0; i < 1000; i++) {
        futex_lock(&log_lock);
        futex_unlock(&log_lock);
    }
    return unused;
}

int main(void)
{
    pthread_t other;
    witness_made(&index_lock, WITNESS_MUTEX);
    pthread_create(&other, NULL, count, NULL);
    count(NULL);
    pthread_join(other, NULL);
    futex_lock(&index_lock);
    futex_lock(&log_lock);
    futex_unlock(&log_lock);
    futex_unlock(&index_lock);
    futex_lock(&log_lock);
    futex_lock(&index_lock);
    pthread_mutex_lock(&accounts);
    pthread_mutex_unlock(&accounts);
    futex_unlock(&index_lock);
    futex_unlock(&log_lock);
    pthread_mutex_lock(&accounts);
    if (futex_trylock(&log_lock))
        futex_unlock(&log_lock);
    futex_lock(&index_lock);
    futex_unlock(&index_lock);
    pthread_mutex_unlock(&accounts);
    witness_destroyed(&index_lock);
    return 0;
}
