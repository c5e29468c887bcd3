/* Five philosophers, one after the other, take the fork at their left and then the one at their right. */
#include <pthread.h>

static pthread_mutex_t forks[5] = {PTHREAD_MUTEX_INITIALIZER, PTHREAD_MUTEX_INITIALIZER,
    PTHREAD_MUTEX_INITIALIZER, PTHREAD_MUTEX_INITIALIZER, PTHREAD_MUTEX_INITIALIZER};

static void *dine(void *argument)
{
    int left = *(int *)argument, right = (left + 1) % 5;
    pthread_mutex_lock(&forks[left]);
    pthread_mutex_lock(&forks[right]);
    pthread_mutex_unlock(&forks[right]);
    pthread_mutex_unlock(&forks[left]);
    return NULL;
}

int main(void)
{
    for (int seat = 0; seat < 5; seat++) {
        pthread_t thread;
        pthread_create(&thread, NULL, dine, &seat);
        pthread_join(thread, NULL);
    }
    return 0;
}
