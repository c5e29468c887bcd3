/*
 * While a thread waits for a lock, a handler of signals changes to another stack, which is higher in memory. There the
 * thread takes a lock, keeps it, and changes back: the call goes on and gets its lock. From then on the thread holds both,
 * and what it asks for is told.
 */
#define _GNU_SOURCE
#include <pthread.h>
#include <signal.h>
#include <ucontext.h>
#include <unistd.h>

enum { STACK_BYTES = 1 << 16 };

static pthread_mutex_t journal = PTHREAD_MUTEX_INITIALIZER;
static pthread_mutex_t accounts = PTHREAD_MUTEX_INITIALIZER;
static pthread_mutex_t kept = PTHREAD_MUTEX_INITIALIZER;
static pthread_barrier_t begun;
static ucontext_t interrupted, other;
static volatile sig_atomic_t came;

static void on_other_stack(void)
{
    pthread_mutex_lock(&kept);
    came = 1;
    swapcontext(&other, &interrupted);
}

static void change(int number)
{
    (void)number;
    if (!came)
        swapcontext(&interrupted, &other);
}

/* The first time nobody else has the journal, so that the second request for it is known. */
static void *wait_for_it(void *unused)
{
    for (int time = 0; time < 2; time++) {
        if (time == 1) {
            pthread_barrier_wait(&begun);
            pthread_barrier_wait(&begun);
        }
        pthread_mutex_lock(&journal);
        if (time == 0)
            pthread_mutex_unlock(&journal);
    }
    pthread_mutex_lock(&accounts);
    pthread_mutex_unlock(&accounts);
    pthread_mutex_unlock(&journal);
    pthread_mutex_unlock(&kept);
    pthread_mutex_lock(&accounts);
    pthread_mutex_lock(&journal);
    pthread_mutex_unlock(&journal);
    pthread_mutex_unlock(&accounts);
    return unused;
}

int main(void)
{
    char stack[STACK_BYTES];
    pthread_t thread;
    signal(SIGUSR1, change);
    getcontext(&other);
    other.uc_stack.ss_sp = stack;
    other.uc_stack.ss_size = sizeof stack;
    makecontext(&other, on_other_stack, 0);
    pthread_barrier_init(&begun, NULL, 2);
    pthread_create(&thread, NULL, wait_for_it, NULL);
    pthread_barrier_wait(&begun);
    pthread_mutex_lock(&journal);
    pthread_barrier_wait(&begun);
    for (int tries = 0; tries < 3 || !came; tries++) {
        usleep(100000);
        pthread_kill(thread, SIGUSR1);
    }
    usleep(100000);
    pthread_mutex_unlock(&journal);
    pthread_join(thread, NULL);
    return 0;
}
