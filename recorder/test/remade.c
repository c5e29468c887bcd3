/*
 * One thread makes a mutex anew again and again that another one holds, and that one asks for further locks meanwhile. So what it
 * holds may be another lock by the time that its request is told. It is wrong to do so, and the trace can be read all the same.
 */
#include <pthread.h>
#include <stdatomic.h>
#include <stdbool.h>
#include <stdlib.h>

enum { TIMES = 20000 };

static pthread_mutex_t held = PTHREAD_MUTEX_INITIALIZER;
static atomic_bool done;

static void *make_anew(void *unused)
{
    while (!atomic_load(&done))
        pthread_mutex_init(&held, NULL);
    return unused;
}

int main(void)
{
    pthread_t thread;
    pthread_create(&thread, NULL, make_anew, NULL);
    for (int i = 0; i < TIMES; i++) {
        pthread_mutex_t *asked = malloc(sizeof *asked);
        pthread_mutex_init(asked, NULL);
        pthread_mutex_lock(&held);
        pthread_mutex_lock(asked);
        pthread_mutex_unlock(asked);
        pthread_mutex_unlock(&held);
        pthread_mutex_destroy(asked);
        free(asked);
    }
    atomic_store(&done, true);
    return pthread_join(thread, NULL);
}
