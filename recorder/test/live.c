/*
 * live CHILDREN: takes two locks in both orders, in each of so many children or, with 0, itself. When all has been done
 * it writes a line and goes on until its input ends.
 */
#include <pthread.h>
#include <stdio.h>
#include <stdlib.h>
#include <sys/wait.h>
#include <unistd.h>

static pthread_mutex_t pool = PTHREAD_MUTEX_INITIALIZER;
static pthread_mutex_t journal = PTHREAD_MUTEX_INITIALIZER;

static void both(pthread_mutex_t *first, pthread_mutex_t *second)
{
    pthread_mutex_lock(first);
    pthread_mutex_lock(second);
    pthread_mutex_unlock(second);
    pthread_mutex_unlock(first);
}

static void reverse(void)
{
    both(&pool, &journal);
    both(&journal, &pool);
}

int main(int count, char **words)
{
    int children = count > 1 ? atoi(words[1]) : 0;
    for (int i = 0; i < children; i++) {
        pid_t child = fork();
        if (child == 0) {
            reverse();
            _exit(0);
        }
        waitpid(child, NULL, 0);
    }
    if (children == 0)
        reverse();
    puts("done");
    fflush(stdout);
    while (getchar() != EOF)
        ;
    return 0;
}
