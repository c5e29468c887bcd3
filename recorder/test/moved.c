/*
 * moved [try|reversal|both]: the middle one of three locks is released first, and then a lock is asked for by a new way. So the
 * third one stands right after the first one, after which it was never asked for by itself.
 *
 * With `try` a lock that comes before is tried while a later one is held, and the third lock is asked for after both. With
 * `reversal` the first one is asked for after the third one. With `both` a lock is tried after that, when the report was told.
 */
#include <pthread.h>
#include <string.h>
#include <unistd.h>

static pthread_mutex_t first, middle, third, inner, later;

static void take_three(void)
{
    pthread_mutex_lock(&first);
    pthread_mutex_lock(&middle);
    pthread_mutex_lock(&third);
}

static void release(pthread_mutex_t *one, pthread_mutex_t *other)
{
    pthread_mutex_unlock(one);
    pthread_mutex_unlock(other);
}

static void take_inner(void)
{
    take_three();
    pthread_mutex_unlock(&middle);
    pthread_mutex_lock(&inner);
    pthread_mutex_unlock(&inner);
    release(&third, &first);
}

static void try_first(void)
{
    pthread_mutex_lock(&third);
    pthread_mutex_lock(&later);
    release(&later, &third);
    pthread_mutex_lock(&later);
    pthread_mutex_trylock(&first);
    pthread_mutex_lock(&third);
    release(&third, &first);
    pthread_mutex_unlock(&later);
}

static void reverse(void)
{
    pthread_mutex_lock(&third);
    pthread_mutex_lock(&first);
    release(&first, &third);
}

static void try_inside(void)
{
    sleep(1);
    pthread_mutex_lock(&later);
    pthread_mutex_trylock(&first);
    pthread_mutex_lock(&inner);
    release(&inner, &first);
    pthread_mutex_unlock(&later);
}

int main(int count, char **words)
{
    const char *word = count > 1 ? words[1] : "";
    take_three();
    release(&third, &middle);
    pthread_mutex_unlock(&first);
    take_inner();
    if (strcmp(word, "try") == 0)
        try_first();
    else if (*word)
        reverse();
    if (strcmp(word, "both") == 0)
        try_inside();
    return 0;
}
