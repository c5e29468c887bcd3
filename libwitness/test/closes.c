/* Closes standard error, and has a file of its own there when the report comes; or takes the reader of it away. */
#include <fcntl.h>
#include <pthread.h>
#include <signal.h>
#include <stdio.h>
#include <string.h>
#include <unistd.h>

static pthread_mutex_t pool = PTHREAD_MUTEX_INITIALIZER;
static pthread_mutex_t journal = PTHREAD_MUTEX_INITIALIZER;

static void both(pthread_mutex_t *first, pthread_mutex_t *second)
{
    pthread_mutex_lock(first);
    pthread_mutex_lock(second);
    pthread_mutex_unlock(second);
    pthread_mutex_unlock(first);
}

int main(int count, char **words)
{
    if (count > 1 && strcmp(words[1], "file") == 0) {
        close(2);
        if (open("precious", O_RDWR | O_CREAT | O_TRUNC, 0600) != 2)
            return 2;
    }
    both(&pool, &journal);
    both(&journal, &pool);
    puts("done");
    return 0;
}
