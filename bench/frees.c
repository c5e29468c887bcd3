/*
 * frees BYTES ROUNDS: takes a block of memory and gives it back, over and over, while a mutex stands in another block.
 * It writes the nanoseconds of processor time that one such pair takes.
 */
#include <pthread.h>
#include <stdio.h>
#include <stdlib.h>
#include <time.h>

int main(int count, char **words)
{
    if (count < 3)
        return 2;
    size_t bytes = strtoul(words[1], NULL, 10);
    long rounds = atol(words[2]);
    pthread_mutex_t *mutex = malloc(sizeof *mutex);
    struct timespec begin, end;
    pthread_mutex_init(mutex, NULL);
    pthread_mutex_lock(mutex);
    pthread_mutex_unlock(mutex);
    clock_gettime(CLOCK_PROCESS_CPUTIME_ID, &begin);
    for (long i = 0; i < rounds; i++) {
        char *volatile block = malloc(bytes);
        block[0] = 1;
        free(block);
    }
    clock_gettime(CLOCK_PROCESS_CPUTIME_ID, &end);
    printf("%.1f\n", ((double)(end.tv_sec - begin.tv_sec) * 1e9 + (double)(end.tv_nsec - begin.tv_nsec)) / (double)rounds);
    return 0;
}
