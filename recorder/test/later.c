/*
 * Two locks of a table are taken in both orders, which is told at once. Then many of its locks are used, and so become
 * one type; and two others are taken in both orders.
 */
#include <pthread.h>
#include <stdio.h>
#include <unistd.h>

enum { LOCKS = 40 };
static pthread_mutex_t table[LOCKS];
static pthread_mutex_t front = PTHREAD_MUTEX_INITIALIZER, back = PTHREAD_MUTEX_INITIALIZER;
static pthread_mutex_t all = PTHREAD_MUTEX_INITIALIZER;

static void both(pthread_mutex_t *first, pthread_mutex_t *second)
{
    pthread_mutex_lock(first);
    pthread_mutex_lock(second);
    pthread_mutex_unlock(second);
    pthread_mutex_unlock(first);
}

int main(void)
{
    both(&table[0], &table[1]);
    both(&table[1], &table[0]);
    both(&table[2], &table[3]);
    both(&table[3], &table[2]);
    sleep(1);
    for (int i = 4; i < LOCKS; i++)
        both(&all, &table[i]);
    both(&front, &back);
    both(&back, &front);
    puts("done");
    return 0;
}
