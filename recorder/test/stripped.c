#include <pthread.h>
#include <stdlib.h>

static pthread_mutex_t *journal, *pool;

/* The only function that a stripped program names, but for main: the static ones stand behind it. */
__attribute__((noinline)) int told(int number)
{
    return number + 1;
}

__attribute__((noinline)) static void *commit(void *unused)
{
    pthread_mutex_lock(journal);
    pthread_mutex_lock(pool);
    pthread_mutex_unlock(pool);
    pthread_mutex_unlock(journal);
    return unused;
}

__attribute__((noinline)) static void checkpoint(void)
{
    pthread_mutex_lock(pool);
    pthread_mutex_lock(journal);
    pthread_mutex_unlock(journal);
    pthread_mutex_unlock(pool);
}

__attribute__((noinline)) static pthread_mutex_t *made(void)
{
    pthread_mutex_t *mutex = malloc(sizeof *mutex);
    pthread_mutex_init(mutex, NULL);
    return mutex;
}

__attribute__((noinline)) static void start(void)
{
    pthread_t thread;
    pthread_create(&thread, NULL, commit, NULL);
    pthread_join(thread, NULL);
}

__attribute__((noinline)) static void run(void)
{
    journal = made();
    pool = made();
    start();
    checkpoint();
}

int main(void)
{
    run();
    return told(-1);
}
