/* A child has a trace of its own, in which it holds what its parent's thread held, and knows no orders. */
#include <pthread.h>
#include <stdlib.h>
#include <sys/wait.h>
#include <unistd.h>

static pthread_mutex_t pool = PTHREAD_MUTEX_INITIALIZER;
static pthread_mutex_t journal = PTHREAD_MUTEX_INITIALIZER;

static void both(pthread_mutex_t *first, pthread_mutex_t *second)
{
    pthread_mutex_lock(first);
    pthread_mutex_lock(second);
    pthread_mutex_unlock(second);
    pthread_mutex_unlock(first);
}

int main(void)
{
    int status;
    both(&pool, &journal);
    pthread_mutex_lock(&journal);
    pid_t child = fork();
    if (child == 0) {
        pthread_mutex_lock(&pool);
        pthread_mutex_unlock(&pool);
        pthread_mutex_unlock(&journal);
        both(&pool, &journal);
        _exit(7);
    }
    pthread_mutex_unlock(&journal);
    waitpid(child, &status, 0);
    return WEXITSTATUS(status) == 7 ? 0 : 1;
}
