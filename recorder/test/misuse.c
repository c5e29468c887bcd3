/*
 * misuse WHAT..: errors in the use of locks that aren't orders, each by its word; `right` is what looks like them and is
 * allowed.
 */
#include <pthread.h>
#include <stdlib.h>
#include <string.h>
#include <sys/wait.h>
#include <time.h>
#include <unistd.h>

static pthread_mutex_t journal = PTHREAD_MUTEX_INITIALIZER, queue = PTHREAD_MUTEX_INITIALIZER;
static pthread_mutex_t shutdown_lock = PTHREAD_MUTEX_INITIALIZER;
static pthread_rwlock_t table = PTHREAD_RWLOCK_INITIALIZER;
static pthread_cond_t filled = PTHREAD_COND_INITIALIZER;
static pthread_mutex_t robust;
static pthread_key_t key;

static void *end_holding(void *unused)
{
    pthread_mutex_lock(&journal);
    return unused;
}

static void *exit_holding(void *unused)
{
    pthread_rwlock_rdlock(&table);
    pthread_exit(unused);
}

static void unlock(void *mutex)
{
    pthread_mutex_unlock(mutex);
}

/* The lock is released by a destructor of the thread's own value. */
static void *release_at_end(void *unused)
{
    pthread_setspecific(key, &shutdown_lock);
    pthread_mutex_lock(&shutdown_lock);
    return unused;
}

static void *end_holding_robust(void *unused)
{
    pthread_mutex_lock(&robust);
    return unused;
}

static void run(void *(*function)(void *))
{
    pthread_t thread;
    if (pthread_create(&thread, NULL, function, NULL) == 0)
        pthread_join(thread, NULL);
}

static pthread_mutex_t *made(void)
{
    pthread_mutex_t *mutex = malloc(sizeof *mutex);
    pthread_mutex_init(mutex, NULL);
    pthread_mutex_lock(mutex);
    return mutex;
}

static void wait_without(void)
{
    struct timespec soon = {1, 0};
    pthread_mutex_lock(&queue);
    pthread_mutex_unlock(&queue);
    pthread_cond_timedwait(&filled, &queue, &soon);
}

static void be_right(void)
{
    struct timespec soon = {1, 0};
    pthread_mutexattr_t attributes;
    pthread_mutexattr_init(&attributes);
    pthread_mutexattr_setrobust(&attributes, PTHREAD_MUTEX_ROBUST);
    pthread_mutex_init(&robust, &attributes);
    run(end_holding_robust);
    pthread_key_create(&key, unlock);
    run(release_at_end);
    pthread_mutex_lock(&queue);
    pthread_cond_timedwait(&filled, &queue, &soon);
    pthread_mutex_unlock(&queue);
    pthread_mutex_destroy(&queue);
    pthread_mutex_init(&queue, NULL);
}

static pthread_mutex_t arena = PTHREAD_MUTEX_INITIALIZER;
static pthread_rwlock_t extents = PTHREAD_RWLOCK_INITIALIZER;

static void take(void)
{
    pthread_mutex_lock(&arena);
    pthread_rwlock_wrlock(&extents);
}

static void give_back(void)
{
    pthread_rwlock_unlock(&extents);
    pthread_mutex_unlock(&arena);
}

static void make_anew(void)
{
    pthread_rwlock_init(&extents, NULL);
    pthread_mutex_init(&arena, NULL);
}

/* As an allocator's handlers of fork do. What the child takes by itself it has to release as ever. */
static void fork_with_handlers(int remakes)
{
    pthread_atfork(take, give_back, make_anew);
    pid_t child = fork();
    if (child == 0) {
        pthread_mutex_lock(&arena);
        if (remakes)
            pthread_mutex_init(&arena, NULL);
        else
            pthread_mutex_unlock(&arena);
        _exit(0);
    }
    waitpid(child, NULL, 0);
}

int main(int count, char **words)
{
    for (int i = 1; i < count; i++) {
        if (strcmp(words[i], "ends") == 0)
            run(end_holding);
        if (strcmp(words[i], "exits") == 0)
            run(exit_holding);
        if (strcmp(words[i], "destroys") == 0) {
            pthread_mutex_t *mutex = made();
            pthread_mutex_destroy(mutex);
            pthread_mutex_unlock(mutex);
        }
        if (strcmp(words[i], "frees") == 0)
            free(made());
        if (strcmp(words[i], "remakes") == 0)
            pthread_mutex_init(made(), NULL);
        if (strcmp(words[i], "waits") == 0)
            wait_without();
        if (strcmp(words[i], "right") == 0)
            be_right();
        if (strcmp(words[i], "forks") == 0 || strcmp(words[i], "child") == 0)
            fork_with_handlers(words[i][0] == 'c');
    }
    return 0;
}
