/*
 * toldlocks [SEMAPHORES]: two threads take two locks in opposite orders, 40 ms apart: locks of the program's own, of which
 * witness.h tells, or semaphores.
 */
#include "witness.h"

#include <pthread.h>
#include <semaphore.h>
#include <stdatomic.h>
#include <unistd.h>

static atomic_int own[2];
static sem_t semaphores[2];
static int by_semaphores;

static void lock(int which)
{
    if (by_semaphores) {
        sem_wait(&semaphores[which]);
        return;
    }
    witness_asked(&own[which], WITNESS_MUTEX);
    while (atomic_exchange(&own[which], 1))
        usleep(1000);
    witness_acquired(&own[which]);
}

static void unlock(int which)
{
    if (by_semaphores) {
        sem_post(&semaphores[which]);
        return;
    }
    witness_released(&own[which]);
    atomic_store(&own[which], 0);
}

static void *forwards(void *unused)
{
    lock(0);
    lock(1);
    unlock(1);
    unlock(0);
    return unused;
}

static void *backwards(void *unused)
{
    usleep(40000);
    lock(1);
    lock(0);
    unlock(0);
    unlock(1);
    return unused;
}

int main(int count, char **words)
{
    pthread_t one, other;
    (void)words;
    by_semaphores = count > 1;
    sem_init(&semaphores[0], 0, 1);
    sem_init(&semaphores[1], 0, 1);
    pthread_create(&one, NULL, forwards, NULL);
    pthread_create(&other, NULL, backwards, NULL);
    pthread_join(one, NULL);
    pthread_join(other, NULL);
    return 0;
}
