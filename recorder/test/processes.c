/*
 * processes one|both|alone mutex|rwlock|spin: two locks that processes share are taken in one order by the program; the child
 * takes them the other way round, then one alone (both), or only that (one), or there is no child (alone).
 */
#include <pthread.h>
#include <string.h>
#include <sys/mman.h>
#include <sys/wait.h>
#include <unistd.h>

static union {
    pthread_mutex_t mutex;
    pthread_rwlock_t rwlock;
    pthread_spinlock_t spin;
} *lock;
static int are_rwlocks, are_spins;

static void take(int number)
{
    if (are_spins)
        pthread_spin_lock(&lock[number].spin);
    else if (are_rwlocks)
        pthread_rwlock_wrlock(&lock[number].rwlock);
    else
        pthread_mutex_lock(&lock[number].mutex);
}

static void give(int number)
{
    if (are_spins)
        pthread_spin_unlock(&lock[number].spin);
    else if (are_rwlocks)
        pthread_rwlock_unlock(&lock[number].rwlock);
    else
        pthread_mutex_unlock(&lock[number].mutex);
}

static void both(int first, int second)
{
    take(first);
    take(second);
    give(second);
    give(first);
}

int main(int count, char **word)
{
    pthread_mutexattr_t of_mutex;
    pthread_rwlockattr_t of_rwlock;
    if (count < 3)
        return 2;
    are_rwlocks = strcmp(word[2], "rwlock") == 0;
    are_spins = strcmp(word[2], "spin") == 0;
    lock = mmap(NULL, 4096, PROT_READ | PROT_WRITE, MAP_SHARED | MAP_ANONYMOUS, -1, 0);
    pthread_mutexattr_init(&of_mutex);
    pthread_mutexattr_setpshared(&of_mutex, PTHREAD_PROCESS_SHARED);
    pthread_rwlockattr_init(&of_rwlock);
    pthread_rwlockattr_setpshared(&of_rwlock, PTHREAD_PROCESS_SHARED);
    if (are_spins) {
        pthread_spin_init(&lock[0].spin, PTHREAD_PROCESS_SHARED);
        pthread_spin_init(&lock[1].spin, PTHREAD_PROCESS_SHARED);
    } else if (are_rwlocks) {
        pthread_rwlock_init(&lock[0].rwlock, &of_rwlock);
        pthread_rwlock_init(&lock[1].rwlock, &of_rwlock);
    } else {
        pthread_mutex_init(&lock[0].mutex, &of_mutex);
        pthread_mutex_init(&lock[1].mutex, &of_mutex);
    }
    if (strcmp(word[1], "alone") != 0 && fork() == 0) {
        if (strcmp(word[1], "both") == 0)
            both(1, 0);
        take(1);
        give(1);
        _exit(0);
    }
    wait(NULL);
    both(0, 1);
    return 0;
}
