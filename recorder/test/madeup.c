/* Three locks, of which the middle one is released before a fourth is asked for. Nothing is tried. */
#include <pthread.h>
#include <stdbool.h>

static pthread_mutex_t first = PTHREAD_MUTEX_INITIALIZER;
static pthread_mutex_t second = PTHREAD_MUTEX_INITIALIZER;
static pthread_mutex_t third = PTHREAD_MUTEX_INITIALIZER;
static pthread_mutex_t fourth = PTHREAD_MUTEX_INITIALIZER;

static void take(bool asks)
{
    pthread_mutex_lock(&first);
    pthread_mutex_lock(&second);
    pthread_mutex_lock(&third);
    pthread_mutex_unlock(&second);
    if (asks) {
        pthread_mutex_lock(&fourth);
        pthread_mutex_unlock(&fourth);
    }
    pthread_mutex_unlock(&third);
    pthread_mutex_unlock(&first);
}

int main(void)
{
    take(false);
    take(true);
    return 0;
}
