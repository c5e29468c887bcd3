/* A bank with three locks. Each function takes two of them, and together the three close a circle. */
#include "bank.h"

#include <pthread.h>

static pthread_mutex_t accounts = PTHREAD_MUTEX_INITIALIZER;
static pthread_mutex_t journal = PTHREAD_MUTEX_INITIALIZER;
static pthread_mutex_t ledger = PTHREAD_MUTEX_INITIALIZER;
static int balance, entries, sum;

void transfer(int amount)
{
    pthread_mutex_lock(&accounts);
    balance += amount;
    pthread_mutex_lock(&journal);
    entries++;
    pthread_mutex_unlock(&journal);
    pthread_mutex_unlock(&accounts);
}

int report(void)
{
    pthread_mutex_lock(&journal);
    pthread_mutex_lock(&ledger);
    sum += entries;
    int answer = sum;
    pthread_mutex_unlock(&ledger);
    pthread_mutex_unlock(&journal);
    return answer;
}

void rebuild(void)
{
    pthread_mutex_lock(&ledger);
    pthread_mutex_lock(&accounts);
    sum = balance;
    pthread_mutex_unlock(&accounts);
    pthread_mutex_unlock(&ledger);
}
