/*
 * Three threads take two locks, one of them in the other order; two have names. Each says its number as the kernel counts
 * threads.
 */
#define _GNU_SOURCE
#include <pthread.h>
#include <stdio.h>
#include <sys/syscall.h>
#include <unistd.h>

static pthread_mutex_t pool = PTHREAD_MUTEX_INITIALIZER;
static pthread_mutex_t journal = PTHREAD_MUTEX_INITIALIZER;
static pthread_mutex_t index_lock = PTHREAD_MUTEX_INITIALIZER;

static void begin(const char *name)
{
    if (name)
        pthread_setname_np(pthread_self(), name);
    printf("%s %ld\n", name ? name : "other", (long)syscall(SYS_gettid));
}

static void *write_back(void *unused)
{
    begin("writer");
    pthread_mutex_lock(&pool);
    pthread_mutex_lock(&journal);
    pthread_mutex_unlock(&journal);
    pthread_mutex_unlock(&pool);
    return unused;
}

static void *collect(void *unused)
{
    begin(NULL);
    pthread_mutex_lock(&journal);
    pthread_mutex_lock(&index_lock);
    pthread_mutex_unlock(&index_lock);
    pthread_mutex_unlock(&journal);
    return unused;
}

static void *read_on(void *unused)
{
    begin("reader");
    pthread_mutex_lock(&index_lock);
    pthread_mutex_lock(&pool);
    pthread_mutex_unlock(&pool);
    pthread_mutex_unlock(&index_lock);
    return unused;
}

static void run(void *(*routine)(void *))
{
    pthread_t thread;
    pthread_create(&thread, NULL, routine, NULL);
    pthread_join(thread, NULL);
}

int main(void)
{
    run(write_back);
    run(collect);
    run(read_on);
    return 0;
}
