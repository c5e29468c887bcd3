/*
 * More locks than a trace has numbers for: five hundred of one type at once, each time with another lock behind them.
 * Then `last` is asked for behind a lock of that type that has no number, and behind one that has one, and the other way
 * round.
 */
#include <pthread.h>

enum { TIMES = 132, AT_ONCE = 500 };
static pthread_mutex_t shelves[TIMES * AT_ONCE];
static pthread_mutex_t other[TIMES] = {[0 ... TIMES - 1] = PTHREAD_MUTEX_INITIALIZER};
static pthread_mutex_t last = PTHREAD_MUTEX_INITIALIZER;

static void nested(pthread_mutex_t *outer, pthread_mutex_t *inner)
{
    pthread_mutex_lock(outer);
    pthread_mutex_lock(inner);
    pthread_mutex_unlock(inner);
    pthread_mutex_unlock(outer);
}

int main(void)
{
    for (int i = 0; i < TIMES * AT_ONCE; i++)
        pthread_mutex_init(&shelves[i], NULL);
    nested(&last, &other[0]);
    for (int time = 0; time < TIMES; time++) {
        pthread_mutex_t *from = &shelves[time * AT_ONCE];
        for (int i = 0; i < AT_ONCE; i++)
            pthread_mutex_lock(&from[i]);
        pthread_mutex_lock(&other[time]);
        pthread_mutex_unlock(&other[time]);
        for (int i = 0; i < AT_ONCE; i++)
            pthread_mutex_unlock(&from[i]);
    }
    for (int i = 0; i < 1000; i++)
        nested(&shelves[TIMES * AT_ONCE - 1], &last);
    nested(&shelves[0], &last);
    nested(&last, &shelves[0]);
    return 0;
}
