/*
 * Locks that are first used, and made, in functions whose frames are of varying size: by an array of variable length
 * and by alloca. The last calls stand near the stack's top, where a step as long as the first one's leads out of it.
 */
#include <alloca.h>
#include <pthread.h>
#include <stdio.h>
#include <stdlib.h>
#include <string.h>

__attribute__((noinline)) static pthread_mutex_t *made(size_t size)
{
    char *room = alloca(size);
    pthread_mutex_t *mutex = malloc(sizeof *mutex);
    memset(room, 1, size);
    pthread_mutex_init(mutex, NULL);
    return room[size / 2] ? mutex : NULL;
}

__attribute__((noinline)) static int used(size_t size, pthread_mutex_t *mutex)
{
    char room[size];
    memset(room, 1, size);
    pthread_mutex_lock(mutex);
    pthread_mutex_unlock(mutex);
    return room[size / 2];
}

static pthread_mutex_t plain[3] = {PTHREAD_MUTEX_INITIALIZER, PTHREAD_MUTEX_INITIALIZER, PTHREAD_MUTEX_INITIALIZER};

static void *run(void *argument)
{
    static const size_t sizes[] = {3000000, 16, 4096};
    pthread_mutex_t *mutexes[3];
    int sum = 0;
    for (int i = 0; i < 3; i++) {
        mutexes[i] = made(sizes[i]);
        sum += used(sizes[i], &plain[i]) + used(sizes[i], mutexes[i]);
    }
    pthread_mutex_lock(mutexes[0]);
    pthread_mutex_lock(&plain[0]);
    pthread_mutex_unlock(&plain[0]);
    pthread_mutex_unlock(mutexes[0]);
    pthread_mutex_lock(&plain[0]);
    pthread_mutex_lock(mutexes[2]);
    pthread_mutex_unlock(mutexes[2]);
    pthread_mutex_unlock(&plain[0]);
    printf("%d\n", sum);
    return argument;
}

int main(void)
{
    pthread_t thread;
    pthread_create(&thread, NULL, run, NULL);
    pthread_join(thread, NULL);
    run(NULL);
    return 0;
}
