/*
 * several COUNT: a row of so many locks of one type, each of which is asked for under the one before; and then two others that
 * are taken both ways.
 */
#include <pthread.h>
#include <stdlib.h>

static pthread_mutex_t front = PTHREAD_MUTEX_INITIALIZER, rear = PTHREAD_MUTEX_INITIALIZER;

static void both(pthread_mutex_t *first, pthread_mutex_t *second)
{
    pthread_mutex_lock(first);
    pthread_mutex_lock(second);
    pthread_mutex_unlock(second);
    pthread_mutex_unlock(first);
}

int main(int words, char **word)
{
    pthread_mutex_t *before = NULL;
    for (int i = words > 1 ? atoi(word[1]) : 0; i > 0; i--) {
        pthread_mutex_t *node = malloc(sizeof *node);
        pthread_mutex_init(node, NULL);
        if (before)
            both(before, node);
        before = node;
    }
    both(&front, &rear);
    both(&rear, &front);
    return 0;
}
