/* The locks of C11. */
#include <stdio.h>
#include <threads.h>
#include <time.h>

static mtx_t pool, journal;
static cnd_t never;

static int checkpoint(void *unused)
{
    struct timespec past = {1, 0};
    (void)unused;
    mtx_lock(&journal);
    mtx_lock(&journal);
    printf("wait: %d\n", cnd_timedwait(&never, &journal, &past) == thrd_timedout);
    mtx_lock(&pool);
    mtx_unlock(&pool);
    mtx_unlock(&journal);
    mtx_unlock(&journal);
    return 0;
}

int main(void)
{
    thrd_t thread;
    mtx_init(&pool, mtx_timed);
    mtx_init(&journal, mtx_plain | mtx_recursive);
    cnd_init(&never);
    mtx_lock(&pool);
    mtx_lock(&journal);
    mtx_unlock(&journal);
    printf("try: %d\n", mtx_trylock(&pool) == thrd_busy);
    mtx_unlock(&pool);
    thrd_create(&thread, checkpoint, NULL);
    thrd_join(thread, NULL);
    mtx_destroy(&pool);
    mtx_destroy(&journal);
    return 0;
}
