/* A daemon that becomes another user, and goes on for longer than the recorder has room mapped: 200,000 pairs of calls. */
#include <pthread.h>
#include <unistd.h>

static pthread_mutex_t journal = PTHREAD_MUTEX_INITIALIZER;
static pthread_mutex_t accounts = PTHREAD_MUTEX_INITIALIZER;

static void nested(pthread_mutex_t *first, pthread_mutex_t *second)
{
    pthread_mutex_lock(first);
    pthread_mutex_lock(second);
    pthread_mutex_unlock(second);
    pthread_mutex_unlock(first);
}

int main(void)
{
    if (setgid(65534) != 0 || setuid(65534) != 0)
        return 1;
    for (int i = 0; i < 100000; i++)
        nested(&journal, &accounts);
    nested(&accounts, &journal);
    return 0;
}
