/* Children that come about while other threads lock, and lock themselves. */
#define _DEFAULT_SOURCE
#include <pthread.h>
#include <stdatomic.h>
#include <sys/wait.h>
#include <unistd.h>

static pthread_mutex_t pool = PTHREAD_MUTEX_INITIALIZER;
static pthread_mutex_t journal = PTHREAD_MUTEX_INITIALIZER;
static pthread_mutex_t own = PTHREAD_MUTEX_INITIALIZER;
static pthread_mutex_t inner = PTHREAD_MUTEX_INITIALIZER;
static atomic_bool done;

static void *commit(void *unused)
{
    while (!done) {
        pthread_mutex_lock(&pool);
        pthread_mutex_lock(&journal);
        pthread_mutex_unlock(&journal);
        pthread_mutex_unlock(&pool);
        usleep(10);
    }
    return unused;
}

int main(void)
{
    pthread_t threads[3];
    int failed = 0;
    for (int i = 0; i < 3; i++)
        pthread_create(&threads[i], NULL, commit, NULL);
    for (int i = 0; i < 6; i++) {
        int status;
        pthread_mutex_lock(&own);
        pid_t child = fork();
        if (child == 0) {
            pthread_mutex_lock(&inner);
            pthread_mutex_unlock(&inner);
            pthread_mutex_unlock(&own);
            _exit(0);
        }
        pthread_mutex_unlock(&own);
        waitpid(child, &status, 0);
        failed |= status;
    }
    done = 1;
    for (int i = 0; i < 3; i++)
        pthread_join(threads[i], NULL);
    return failed;
}
