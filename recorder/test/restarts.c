/*
 * A thread that holds a mutex waits for a semaphore that is a lock, and a handler of signals runs meanwhile. The wait goes on
 * where the handler was set with SA_RESTART, and is interrupted where it wasn't.
 */
#define _GNU_SOURCE
#include <errno.h>
#include <pthread.h>
#include <semaphore.h>
#include <signal.h>
#include <stdio.h>
#include <unistd.h>

static pthread_mutex_t table = PTHREAD_MUTEX_INITIALIZER;
static sem_t turn;
static pthread_barrier_t round_of_both;
static int kind[] = {SA_RESTART, SA_RESTART, SA_RESTART, 0, 0};
enum { ROUNDS = sizeof kind / sizeof *kind };
static pthread_t waiter;

static void handler(int number)
{
    (void)number;
}

static void *wait_for_turn(void *unused)
{
    for (int i = 0; i < ROUNDS; i++) {
        pthread_barrier_wait(&round_of_both);
        pthread_mutex_lock(&table);
        int answer = sem_wait(&turn);
        printf("%s: %s\n", kind[i] ? "restarts" : "ends", answer == 0 ? "got it" : errno == EINTR ? "interrupted" : "failed");
        if (answer == 0)
            sem_post(&turn);
        pthread_mutex_unlock(&table);
        pthread_barrier_wait(&round_of_both);
    }
    return unused;
}

int main(void)
{
    sem_init(&turn, 0, 1);
    pthread_barrier_init(&round_of_both, NULL, 2);
    pthread_create(&waiter, NULL, wait_for_turn, NULL);
    for (int i = 0; i < ROUNDS; i++) {
        struct sigaction action = {.sa_handler = handler, .sa_flags = kind[i]};
        sigaction(SIGUSR1, &action, NULL);
        /* The first round makes the order known. */
        if (i > 0)
            sem_wait(&turn);
        pthread_barrier_wait(&round_of_both);
        usleep(100000);
        if (i > 0) {
            pthread_kill(waiter, SIGUSR1);
            usleep(100000);
            sem_post(&turn);
        }
        pthread_barrier_wait(&round_of_both);
    }
    return pthread_join(waiter, NULL);
}
