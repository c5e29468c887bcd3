/* A child of fork begins anew: it knows no order of its parent's, and what its one thread holds. */
#include <pthread.h>
#include <stdio.h>
#include <sys/wait.h>
#include <unistd.h>

static pthread_mutex_t pool = PTHREAD_MUTEX_INITIALIZER;
static pthread_mutex_t journal = PTHREAD_MUTEX_INITIALIZER;
static pthread_mutex_t index_lock = PTHREAD_MUTEX_INITIALIZER;

static void both(pthread_mutex_t *first, pthread_mutex_t *second)
{
    pthread_mutex_lock(first);
    pthread_mutex_lock(second);
    pthread_mutex_unlock(second);
    pthread_mutex_unlock(first);
}

/* Holds `journal` from before the fork. */
static void child(void)
{
    pthread_mutex_lock(&pool);
    pthread_mutex_unlock(&pool);
    pthread_mutex_unlock(&journal);
    both(&pool, &index_lock);
    fprintf(stderr, "child: so far none\n");
    both(&index_lock, &pool);
    _exit(0);
}

int main(void)
{
    both(&pool, &journal);
    pthread_mutex_lock(&journal);
    if (fork() == 0)
        child();
    wait(NULL);
    fprintf(stderr, "parent\n");
    pthread_mutex_lock(&pool);
    pthread_mutex_unlock(&pool);
    pthread_mutex_unlock(&journal);
    return 0;
}
