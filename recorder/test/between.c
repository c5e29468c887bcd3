/* Two locks are held, the second by a try: what is asked for behind them is behind the first one, too, though no request says so. */
#include <pthread.h>

static pthread_mutex_t pool = PTHREAD_MUTEX_INITIALIZER;
static pthread_mutex_t cache = PTHREAD_MUTEX_INITIALIZER;
static pthread_mutex_t journal = PTHREAD_MUTEX_INITIALIZER;

int main(void)
{
    pthread_mutex_lock(&pool);
    if (pthread_mutex_trylock(&cache) != 0)
        return 1;
    pthread_mutex_lock(&journal);
    pthread_mutex_unlock(&journal);
    pthread_mutex_unlock(&cache);
    pthread_mutex_unlock(&pool);
    pthread_mutex_lock(&journal);
    pthread_mutex_lock(&pool);
    pthread_mutex_unlock(&pool);
    pthread_mutex_unlock(&journal);
    return 0;
}
