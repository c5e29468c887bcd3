/*
 * itself [try]: a thread takes three mutexes, as it did before, and releases the second one, or with `try` the first one.
 * Then it asks for the third one, which it holds, and waits for ever. With `try` the second one is tried.
 */
#include <pthread.h>
#include <string.h>

static pthread_mutex_t first, second, third;

static void take(int tries)
{
    pthread_mutex_lock(&first);
    if (tries)
        pthread_mutex_trylock(&second);
    else
        pthread_mutex_lock(&second);
    pthread_mutex_lock(&third);
}

int main(int count, char **words)
{
    int tries = count > 1 && strcmp(words[1], "try") == 0;
    take(tries);
    pthread_mutex_unlock(&third);
    pthread_mutex_unlock(&second);
    pthread_mutex_unlock(&first);
    take(tries);
    pthread_mutex_unlock(tries ? &first : &second);
    pthread_mutex_lock(&third);
    return 0;
}
