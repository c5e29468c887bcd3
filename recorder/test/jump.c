/*
 * A thread leaves a call that waits for a lock, and goes on: by a jump out of a handler of signals (0, 1 where it goes on
 * from deeper in its stack, 3 where that is in the function that made the call), or by a cancellation at any time (2), in
 * whose cleanup it goes on. It still holds what it held; what it does then is recorded as before. The main thread takes
 * the lock that was waited for.
 */
#include <pthread.h>
#include <setjmp.h>
#include <signal.h>
#include <stdlib.h>
#include <unistd.h>

static pthread_mutex_t journal = PTHREAD_MUTEX_INITIALIZER;
static pthread_mutex_t accounts = PTHREAD_MUTEX_INITIALIZER;
static pthread_mutex_t outer = PTHREAD_MUTEX_INITIALIZER;
static pthread_mutex_t busy = PTHREAD_MUTEX_INITIALIZER;
static sigjmp_buf behind;
static int way;

static void nested(pthread_mutex_t *first, pthread_mutex_t *second)
{
    pthread_mutex_lock(first);
    pthread_mutex_lock(second);
    pthread_mutex_unlock(second);
    pthread_mutex_unlock(first);
}

static void leave(int number)
{
    siglongjmp(behind, number);
}

static void go_on(void *argument)
{
    char room[way == 1 ? 100000 : 16];
    room[way] = 1;
    if (way != 3) {
        pthread_mutex_unlock(argument);
        nested(&journal, &accounts);
    }
    nested(&accounts, &journal);
}

static void *wait_for_it(void *argument)
{
    pthread_setcanceltype(PTHREAD_CANCEL_ASYNCHRONOUS, NULL);
    pthread_mutex_lock(argument);
    pthread_cleanup_push(go_on, argument);
    if (sigsetjmp(behind, 1) == 0) {
        pthread_mutex_lock(&busy);
    } else if (way == 3) {
        pthread_mutex_unlock(argument);
        pthread_mutex_lock(&journal);
        pthread_mutex_lock(&accounts);
        pthread_mutex_unlock(&accounts);
        pthread_mutex_unlock(&journal);
    }
    pthread_cleanup_pop(1);
    return NULL;
}

int main(int count, char **words)
{
    pthread_t thread;
    way = count > 1 ? atoi(words[1]) : 0;
    signal(SIGUSR1, leave);
    pthread_mutex_lock(&busy);
    pthread_create(&thread, NULL, wait_for_it, &outer);
    usleep(300000);
    if (way == 2)
        pthread_cancel(thread);
    else
        pthread_kill(thread, SIGUSR1);
    pthread_join(thread, NULL);
    pthread_mutex_unlock(&busy);
    nested(&busy, &outer);
    return 0;
}
