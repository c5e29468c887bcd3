/* A thread asks for a mutex that it holds, and waits for ever. */
#include <pthread.h>

static pthread_mutex_t pool = PTHREAD_MUTEX_INITIALIZER;
static pthread_mutex_t journal = PTHREAD_MUTEX_INITIALIZER;

int main(void)
{
    pthread_mutex_lock(&pool);
    pthread_mutex_lock(&journal);
    pthread_mutex_lock(&pool);
    return 0;
}
