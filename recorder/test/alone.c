/* A request is reported; of its other pair the order is learnt by a later request, and is reversed after that. */
#include <pthread.h>

static pthread_mutex_t first = PTHREAD_MUTEX_INITIALIZER, second = PTHREAD_MUTEX_INITIALIZER, third = PTHREAD_MUTEX_INITIALIZER;

static void take(pthread_mutex_t *one, pthread_mutex_t *other)
{
    pthread_mutex_lock(one);
    pthread_mutex_lock(other);
    pthread_mutex_unlock(other);
    pthread_mutex_unlock(one);
}

int main(void)
{
    take(&first, &second);
    pthread_mutex_lock(&third);
    take(&second, &first);
    pthread_mutex_unlock(&third);
    take(&third, &first);
    take(&first, &third);
    return 0;
}
