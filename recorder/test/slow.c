/* A thread holds a mutex and sleeps; another takes and releases one that nobody else has, for six seconds. */
#define _GNU_SOURCE
#include <pthread.h>
#include <unistd.h>

static pthread_mutex_t table = PTHREAD_MUTEX_INITIALIZER;
static pthread_mutex_t ticks = PTHREAD_MUTEX_INITIALIZER;

static void *write_out(void *unused)
{
    pthread_setname_np(pthread_self(), "slow writer");
    pthread_mutex_lock(&table);
    sleep(60);
    return unused;
}

int main(void)
{
    pthread_t thread;
    pthread_create(&thread, NULL, write_out, NULL);
    for (int tick = 0; tick < 600; tick++) {
        pthread_mutex_lock(&ticks);
        pthread_mutex_unlock(&ticks);
        usleep(10000);
    }
    return 0;
}
