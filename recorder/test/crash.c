/* A program that crashes: before any lock was taken behind another, or behind one. */
#include <pthread.h>
#include <signal.h>

static pthread_mutex_t pool = PTHREAD_MUTEX_INITIALIZER;
static pthread_mutex_t journal = PTHREAD_MUTEX_INITIALIZER;

int main(int count, char **words)
{
    if (count > 1 && words[1][0] == '2') {
        pthread_mutex_lock(&pool);
        pthread_mutex_lock(&journal);
    }
    raise(SIGSEGV);
    return 0;
}
