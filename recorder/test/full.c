/* A reversal, then so many pairs of lock and unlock that a trace of all of them has no room. */
#include <pthread.h>
#include <stdlib.h>

static pthread_mutex_t journal = PTHREAD_MUTEX_INITIALIZER;
static pthread_mutex_t accounts = PTHREAD_MUTEX_INITIALIZER;

static void nested(pthread_mutex_t *first, pthread_mutex_t *second)
{
    pthread_mutex_lock(first);
    pthread_mutex_lock(second);
    pthread_mutex_unlock(second);
    pthread_mutex_unlock(first);
}

int main(int count, char **words)
{
    int pairs = count > 1 ? atoi(words[1]) : 0;
    nested(&journal, &accounts);
    if (count > 2)
        nested(&accounts, &journal);
    for (int i = 0; i < pairs; i++)
        nested(&journal, &accounts);
    return 5;
}
