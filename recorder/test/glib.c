/*
 * GLib's mutexes in both orders, and a wait for a condition by a thread that holds another one. It needs GLib's library
 * alone, without its headers.
 */
#include <pthread.h>
#include <stdint.h>

typedef struct { uintptr_t word; } GMutex;
typedef struct { uintptr_t words[2]; } GCond;

void g_mutex_lock(GMutex *mutex);
int g_mutex_trylock(GMutex *mutex);
void g_mutex_unlock(GMutex *mutex);
int g_cond_wait_until(GCond *condition, GMutex *mutex, int64_t end);

static GMutex account, audit, queue, pool;
static GCond filled;

static void *transfer(void *unused)
{
    g_mutex_lock(&account);
    g_mutex_lock(&audit);
    g_mutex_unlock(&audit);
    g_mutex_unlock(&account);
    return unused;
}

static void *report(void *unused)
{
    g_mutex_lock(&audit);
    g_mutex_lock(&account);
    g_mutex_unlock(&account);
    g_mutex_unlock(&audit);
    return unused;
}

static void *consume(void *unused)
{
    g_mutex_lock(&queue);
    g_mutex_lock(&pool);
    g_cond_wait_until(&filled, &queue, 1);
    g_mutex_unlock(&pool);
    if (g_mutex_trylock(&pool))
        g_mutex_unlock(&pool);
    g_mutex_unlock(&queue);
    return unused;
}

static void run(void *(*function)(void *))
{
    pthread_t thread;
    if (pthread_create(&thread, NULL, function, NULL) == 0)
        pthread_join(thread, NULL);
}

int main(void)
{
    run(transfer);
    run(report);
    run(consume);
    return 0;
}
