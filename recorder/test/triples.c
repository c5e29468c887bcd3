/* triples ROUNDS: all ascending triples of twelve mutexes, one after the other, so many times; last, one pair the other way. */
#include <pthread.h>
#include <stdlib.h>

enum { LOCKS = 12 };
static pthread_mutex_t locks[LOCKS];

int main(int count, char **words)
{
    int rounds = count > 1 ? atoi(words[1]) : 1;
    for (int round = 0; round < rounds; round++)
        for (int i = 0; i < LOCKS; i++)
            for (int j = i + 1; j < LOCKS; j++)
                for (int k = j + 1; k < LOCKS; k++) {
                    pthread_mutex_lock(&locks[i]);
                    pthread_mutex_lock(&locks[j]);
                    pthread_mutex_lock(&locks[k]);
                    pthread_mutex_unlock(&locks[k]);
                    pthread_mutex_unlock(&locks[j]);
                    pthread_mutex_unlock(&locks[i]);
                }
    pthread_mutex_lock(&locks[7]);
    pthread_mutex_lock(&locks[3]);
    pthread_mutex_unlock(&locks[3]);
    pthread_mutex_unlock(&locks[7]);
    return 0;
}
