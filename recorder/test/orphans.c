/*
 * Another thread holds two locks while this one forks. In the child nobody holds them: they are made anew there, and
 * taken in both orders. Then the parent takes them in the orders that it knows.
 */
#include <pthread.h>
#include <sys/wait.h>
#include <unistd.h>

static pthread_mutex_t pool = PTHREAD_MUTEX_INITIALIZER;
static pthread_mutex_t journal = PTHREAD_MUTEX_INITIALIZER;
static pthread_barrier_t meeting;

static void both(pthread_mutex_t *first, pthread_mutex_t *second)
{
    pthread_mutex_lock(first);
    pthread_mutex_lock(second);
    pthread_mutex_unlock(second);
    pthread_mutex_unlock(first);
}

static void *hold(void *unused)
{
    pthread_mutex_lock(&pool);
    pthread_mutex_lock(&journal);
    pthread_barrier_wait(&meeting);
    pthread_barrier_wait(&meeting);
    pthread_mutex_unlock(&journal);
    pthread_mutex_unlock(&pool);
    return unused;
}

static void made_anew(pthread_mutex_t *mutex)
{
    *mutex = (pthread_mutex_t)PTHREAD_MUTEX_INITIALIZER;
}

int main(void)
{
    pthread_t holder;
    int status;
    pthread_barrier_init(&meeting, NULL, 2);
    pthread_create(&holder, NULL, hold, NULL);
    pthread_barrier_wait(&meeting);
    pid_t child = fork();
    if (child == 0) {
        made_anew(&pool);
        made_anew(&journal);
        both(&journal, &pool);
        both(&pool, &journal);
        _exit(7);
    }
    waitpid(child, &status, 0);
    pthread_barrier_wait(&meeting);
    pthread_join(holder, NULL);
    both(&pool, &journal);
    return WEXITSTATUS(status) == 7 ? 0 : 1;
}
