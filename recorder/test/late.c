/*
 * A lock that is written when the one taken just before it, by a try, is released already. It was asked for while the first one
 * was held: that is an order.
 */
#include <pthread.h>

static pthread_mutex_t file = PTHREAD_MUTEX_INITIALIZER;
static pthread_mutex_t page = PTHREAD_MUTEX_INITIALIZER;
static pthread_mutex_t entry = PTHREAD_MUTEX_INITIALIZER;
static pthread_mutex_t counter = PTHREAD_MUTEX_INITIALIZER;

int main(void)
{
    for (int i = 0; i < 2; i++) {
        pthread_mutex_lock(&file);
        pthread_mutex_trylock(&page);
        pthread_mutex_lock(&entry);
        pthread_mutex_unlock(&page);
        if (i == 1) {
            pthread_mutex_lock(&counter);
            pthread_mutex_unlock(&counter);
        }
        pthread_mutex_unlock(&entry);
        pthread_mutex_unlock(&file);
    }
    pthread_mutex_lock(&entry);
    pthread_mutex_lock(&file);
    pthread_mutex_unlock(&file);
    pthread_mutex_unlock(&entry);
    return 0;
}
