/* Threads that each hold six hundred locks at once, in one order; more than the recorder follows. */
#include <pthread.h>
#include "test/many.h"

enum { LOCKS = 600 };
static pthread_mutex_t last = PTHREAD_MUTEX_INITIALIZER;

static void *hold(void *unused)
{
    for (int held = 20; held <= LOCKS; held += 290) {
        for (int i = 0; i < held; i++)
            pthread_mutex_lock(many[i]);
        pthread_mutex_lock(&last);
        pthread_mutex_unlock(&last);
        for (int i = 0; i < held; i++)
            pthread_mutex_unlock(many[i]);
    }
    return unused;
}

int main(void)
{
    for (int i = 0; i < 3; i++) {
        pthread_t thread;
        pthread_create(&thread, NULL, hold, NULL);
        pthread_join(thread, NULL);
    }
    return 0;
}
