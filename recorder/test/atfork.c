/*
 * A library whose constructor registers handlers of fork that take its locks, as allocators do; it runs before that of
 * an object that was preloaded. A second thread takes locks under the library's all the time, and main forks.
 */
#include <pthread.h>
#include <stdio.h>
#include <stdlib.h>
#include <sys/wait.h>
#include <unistd.h>

#ifdef LIBRARY
static pthread_mutex_t arena = PTHREAD_MUTEX_INITIALIZER;
static pthread_mutex_t pages = PTHREAD_MUTEX_INITIALIZER;

static void take(void)
{
    pthread_mutex_lock(&arena);
    pthread_mutex_lock(&pages);
}

static void give_back(void)
{
    pthread_mutex_unlock(&pages);
    pthread_mutex_unlock(&arena);
}

__attribute__((constructor)) static void loaded(void)
{
    pthread_atfork(take, give_back, give_back);
}

void library_works(void)
{
    pthread_mutex_t inner;
    pthread_mutex_init(&inner, NULL);
    take();
    pthread_mutex_lock(&inner);
    pthread_mutex_unlock(&inner);
    give_back();
    pthread_mutex_destroy(&inner);
}
#else
void library_works(void);

static pthread_mutex_t journal = PTHREAD_MUTEX_INITIALIZER;
static pthread_mutex_t accounts = PTHREAD_MUTEX_INITIALIZER;
static _Atomic int over;

static void nested(pthread_mutex_t *first, pthread_mutex_t *second)
{
    pthread_mutex_lock(first);
    pthread_mutex_lock(second);
    pthread_mutex_unlock(second);
    pthread_mutex_unlock(first);
}

static void *work(void *argument)
{
    while (!over)
        library_works();
    return argument;
}

int main(int count, char **words)
{
    pthread_t thread;
    int forks = count > 1 ? atoi(words[1]) : 1, status;
    if (forks > 1)
        pthread_create(&thread, NULL, work, NULL);
    for (int i = 0; i < forks; i++) {
        if (fork() == 0) {
            library_works();
            nested(&journal, &accounts);
            if (i == 0)
                nested(&accounts, &journal);
            _exit(3);
        }
        wait(&status);
        if (WEXITSTATUS(status) != 3)
            return 1;
    }
    over = 1;
    if (forks > 1)
        pthread_join(thread, NULL);
    puts("forked");
    return 0;
}
#endif
