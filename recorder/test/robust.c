/*
 * A robust mutex whose holder ended, and which was given back without being made consistent, answers each thread at once
 * that it can't be recovered, also one that holds another lock. The status is 0 where each thread is answered so.
 */
#include <errno.h>
#include <pthread.h>
#include <stddef.h>

static pthread_mutex_t robust, other = PTHREAD_MUTEX_INITIALIZER;

static void *end_with_it(void *unused)
{
    pthread_mutex_lock(&robust);
    return unused;
}

static void *ask(void *answers)
{
    int *answer = answers;
    pthread_mutex_lock(&other);
    for (int i = 0; i < 3; i++)
        answer[i] = pthread_mutex_lock(&robust);
    pthread_mutex_unlock(&other);
    return NULL;
}

static int run(void *(*function)(void *), void *argument)
{
    pthread_t thread;
    return pthread_create(&thread, NULL, function, argument) != 0 || pthread_join(thread, NULL) != 0;
}

int main(void)
{
    pthread_mutexattr_t attributes;
    int answer[6];
    pthread_mutexattr_init(&attributes);
    pthread_mutexattr_setrobust(&attributes, PTHREAD_MUTEX_ROBUST);
    pthread_mutex_init(&robust, &attributes);
    if (run(end_with_it, NULL) || pthread_mutex_lock(&robust) != EOWNERDEAD || pthread_mutex_unlock(&robust) != 0
        || run(ask, answer) || run(ask, answer + 3))
        return 2;
    for (int i = 0; i < 6; i++)
        if (answer[i] != ENOTRECOVERABLE)
            return 1;
    return 0;
}
