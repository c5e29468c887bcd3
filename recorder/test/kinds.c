/* Two locks that are made at one line are of one type; those of two lines are of two. */
#include <pthread.h>
#include <stdlib.h>

static pthread_mutex_t *made(void)
{
    pthread_mutex_t *mutex = malloc(sizeof *mutex);
    pthread_mutex_init(mutex, NULL);
    return mutex;
}

static void both(pthread_mutex_t *first, pthread_mutex_t *second)
{
    pthread_mutex_lock(first);
    pthread_mutex_lock(second);
    pthread_mutex_unlock(second);
    pthread_mutex_unlock(first);
}

int main(void)
{
    pthread_mutex_t *page[2], *file;
    for (int i = 0; i < 2; i++)
        page[i] = made();
    file = made();
    both(page[0], page[1]);
    both(page[0], file);
    both(file, page[1]);
    return 0;
}
