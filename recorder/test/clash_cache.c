/* Two files of one program have each a mutex `lock`: they are told apart by the file. With clash_pool.c. */
#include <pthread.h>

static pthread_mutex_t lock = PTHREAD_MUTEX_INITIALIZER;

void with_pool(int before);

void cache_locked(int locked)
{
    if (locked)
        pthread_mutex_lock(&lock);
    else
        pthread_mutex_unlock(&lock);
}

int main(int count, char **words)
{
    (void)words;
    cache_locked(1);
    with_pool(0);
    cache_locked(0);
    if (count > 1)
        with_pool(1);
    return 0;
}
