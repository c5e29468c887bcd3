/* More locks than there are numbers for, all of one type, each taken in its turn. */
#include <pthread.h>
#include <stdlib.h>

enum { LOCKS = 66000 };

int main(void)
{
    pthread_mutex_t *locks = malloc(LOCKS * sizeof *locks);
    if (!locks)
        return 2;
    for (int i = 0; i < LOCKS; i++)
        pthread_mutex_init(&locks[i], NULL);
    for (int i = 0; i < LOCKS; i++) {
        pthread_mutex_lock(&locks[i]);
        pthread_mutex_unlock(&locks[i]);
    }
    return 0;
}
