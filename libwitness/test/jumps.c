/* The program's function leaves by a jump: what was asked for isn't asked for any longer. */
#include <libwitness.h>
#include <pthread.h>
#include <setjmp.h>
#include <stdio.h>

static pthread_mutex_t pool = PTHREAD_MUTEX_INITIALIZER, journal = PTHREAD_MUTEX_INITIALIZER;
static pthread_mutex_t left = PTHREAD_MUTEX_INITIALIZER, right = PTHREAD_MUTEX_INITIALIZER;
static jmp_buf back;
static int calls;

static void reported(const struct witness_report *report, void *data)
{
    (void)report;
    (void)data;
    calls++;
    longjmp(back, 1);
}

static void both(pthread_mutex_t *first, pthread_mutex_t *second)
{
    pthread_mutex_lock(first);
    if (setjmp(back) == 0) {
        pthread_mutex_lock(second);
        pthread_mutex_unlock(second);
    }
    pthread_mutex_unlock(first);
}

int main(void)
{
    witness_start();
    witness_on_report(reported, NULL);
    both(&pool, &journal);
    both(&journal, &pool);
    printf("%d\n", calls);
    both(&left, &right);
    both(&right, &left);
    printf("%d\n", calls);
    printf("%d %d\n", pthread_mutex_trylock(&pool), pthread_mutex_trylock(&left));
    return 0;
}
