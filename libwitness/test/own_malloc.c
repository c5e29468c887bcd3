/* A program whose malloc takes two locks of its own, in either order: the library judges them from inside it. */
#include <libwitness.h>
#include <pthread.h>
#include <stddef.h>
#include <unistd.h>

static pthread_mutex_t arena = PTHREAD_MUTEX_INITIALIZER;
static pthread_mutex_t pages = PTHREAD_MUTEX_INITIALIZER;
static char memory[1 << 20];
static size_t used;

static void *taken(size_t size)
{
    void *at = memory + used;
    used += (size + 15) / 16 * 16;
    return at;
}

void *malloc(size_t size)
{
    pthread_mutex_lock(&arena);
    pthread_mutex_lock(&pages);
    void *at = taken(size);
    pthread_mutex_unlock(&pages);
    pthread_mutex_unlock(&arena);
    return at;
}

void free(void *at)
{
    pthread_mutex_lock(&pages);
    pthread_mutex_lock(&arena);
    pthread_mutex_unlock(&arena);
    pthread_mutex_unlock(&pages);
    (void)at;
}

static void reported(const struct witness_report *report, void *data)
{
    (void)data;
    if (report->kind == WITNESS_REVERSAL)
        write(1, "reversal\n", 9);
}

int main(void)
{
    witness_on_report(reported, NULL);
    void *volatile at = malloc(100);
    free(at);
    return 0;
}
