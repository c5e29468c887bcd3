/*
 * Main joins a thread. Before it knows so, another thread is made, which gets the first one's handle, takes two mutexes, and
 * goes on. Meanwhile a third one takes them the other way round. With LIBRARY it is what holds main up: a pthread_join that
 * comes back late.
 */
#define _GNU_SOURCE
#include <dlfcn.h>
#include <pthread.h>
#include <stdio.h>
#include <unistd.h>

#ifdef LIBRARY
int pthread_join(pthread_t thread, void **answered)
{
    int (*real)(pthread_t, void **) = (int (*)(pthread_t, void **))dlsym(RTLD_NEXT, "pthread_join");
    void (*held_up)(void) = (void (*)(void))dlsym(RTLD_DEFAULT, "held_up");
    int answer = real(thread, answered);
    if (held_up)
        held_up();
    return answer;
}
#else
static pthread_mutex_t pool = PTHREAD_MUTEX_INITIALIZER, journal = PTHREAD_MUTEX_INITIALIZER;
static volatile int joins, is_joined, has_taken, may_end;
static pthread_t second;

void held_up(void)
{
    if (!joins)
        return;
    joins = 0;
    is_joined = 1;
    while (!has_taken)
        usleep(1000);
}

static void *commit(void *unused)
{
    pthread_mutex_lock(&pool);
    pthread_mutex_lock(&journal);
    pthread_mutex_unlock(&journal);
    pthread_mutex_unlock(&pool);
    return unused;
}

static void *checkpoint(void *unused)
{
    pthread_mutex_lock(&journal);
    pthread_mutex_lock(&pool);
    pthread_mutex_unlock(&pool);
    pthread_mutex_unlock(&journal);
    has_taken = 1;
    while (!may_end)
        usleep(1000);
    return unused;
}

static void *make_second(void *unused)
{
    while (!is_joined)
        usleep(1000);
    pthread_create(&second, NULL, checkpoint, NULL);
    return unused;
}

static void *idle(void *unused)
{
    return unused;
}

int main(void)
{
    pthread_t maker, first, third;
    pthread_create(&maker, NULL, make_second, NULL);
    pthread_create(&first, NULL, idle, NULL);
    usleep(20000);
    joins = 1;
    pthread_join(first, NULL);
    is_joined = 1;
    while (!has_taken)
        usleep(1000);
    puts(pthread_equal(first, second) ? "the same handle" : "another handle");
    pthread_create(&third, NULL, commit, NULL);
    pthread_join(third, NULL);
    may_end = 1;
    pthread_join(second, NULL);
    pthread_join(maker, NULL);
    return 0;
}
#endif
