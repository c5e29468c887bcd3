/*
 * What models of programs share: locks, threads, and time that passes.
 */
#ifndef MODEL_H
#define MODEL_H

#include <dlfcn.h>
#include <pthread.h>
#include <semaphore.h>
#include <stdatomic.h>
#include <stdio.h>
#include <stdlib.h>
#include <string.h>
#include <time.h>
#include <unistd.h>

typedef pthread_mutex_t mutex;
#define UNLOCKED PTHREAD_MUTEX_INITIALIZER
#define lock(m) pthread_mutex_lock(m)
#define unlock(m) pthread_mutex_unlock(m)
#define nap(microseconds) usleep((useconds_t)(microseconds))

static __thread unsigned seed;

static inline long microseconds(void)
{
    struct timespec now;
    clock_gettime(CLOCK_MONOTONIC, &now);
    return now.tv_sec * 1000000L + now.tv_nsec / 1000;
}

static inline void work(long length)
{
    for (long end = microseconds() + length; microseconds() < end;)
        ;
}

static inline unsigned below(unsigned limit)
{
    if (!seed)
        seed = (unsigned)microseconds() ^ (unsigned)(unsigned long)&seed;
    seed = seed * 1664525u + 1013904223u;
    return (seed >> 10) % limit;
}

/* A function of a thread without an argument. */
#define THREAD(name) static void *name(void *unused __attribute__((unused)))

/* Makes the threads, and waits for all of them. */
static inline void run_all(void *(*const *routine)(void *), int count)
{
    pthread_t thread[16];
    for (int i = 0; i < count; i++)
        pthread_create(&thread[i], NULL, routine[i], (void *)(long)i);
    for (int i = 0; i < count; i++)
        pthread_join(thread[i], NULL);
}
#define RUN(...) run_all((void *(*const[])(void *)){__VA_ARGS__}, sizeof((void *(*const[])(void *)){__VA_ARGS__}) / sizeof(void *))

struct model {
    const char *name;
    void (*run)(void);
};

/* Runs the model of the first word. */
static inline int run_model(const struct model *model, size_t count, char **words)
{
    for (size_t i = 0; i < count; i++)
        if (words[1] && strcmp(words[1], model[i].name) == 0) {
            model[i].run();
            puts("ended");
            return 0;
        }
    for (size_t i = 0; i < count; i++)
        puts(model[i].name);
    return 2;
}

#endif
