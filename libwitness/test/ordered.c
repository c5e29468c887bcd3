/*
 * What is said of orders beforehand: words choose what is tried. The known orders are those of WITNESS_ORDERS, or of
 * witness_define_order.
 */
#include <libwitness.h>
#include <pthread.h>
#include <stdio.h>
#include <stdlib.h>
#include <string.h>

static pthread_mutex_t pool = PTHREAD_MUTEX_INITIALIZER, journal = PTHREAD_MUTEX_INITIALIZER;
static pthread_mutex_t left = PTHREAD_MUTEX_INITIALIZER, right = PTHREAD_MUTEX_INITIALIZER;
static pthread_mutex_t up = PTHREAD_MUTEX_INITIALIZER, down = PTHREAD_MUTEX_INITIALIZER;

static void both(pthread_mutex_t *first, pthread_mutex_t *second)
{
    pthread_mutex_lock(first);
    pthread_mutex_lock(second);
    pthread_mutex_unlock(second);
    pthread_mutex_unlock(first);
}

static __attribute__((noinline)) pthread_mutex_t *page_new(void)
{
    pthread_mutex_t *page = malloc(sizeof *page);
    pthread_mutex_init(page, NULL);
    return page;
}

/* What the file of WITNESS_ORDERS speaks of: the first is a reversal by its list, and the others are all right. */
static void try_file(void)
{
    pthread_mutex_t *pages[2];
    both(&journal, &pool);
    both(&left, &right);
    both(&right, &left);
    both(&up, &down);
    both(&down, &up);
    for (int i = 0; i < 2; i++)
        pages[i] = page_new();
    both(pages[0], pages[1]);
}

/* An order is named before its locks are known, after that, and against what is known. */
static void try_defined(void)
{
    printf("%d\n", witness_define_order(&pool, &journal));
    both(&journal, &pool);
    both(&left, &right);
    printf("%d\n", witness_define_order(&up, &left));
    both(&right, &up);
    printf("%d\n", witness_define_order(&right, &left));
    printf("%d\n", witness_define_order(&up, &up));
}

static void try_watch(void)
{
    printf("%d\n", witness_watch(WITNESS_WATCH_QUIET));
    both(&pool, &journal);
    both(&journal, &pool);
    printf("%d\n", witness_watch(WITNESS_WATCH_ON));
    printf("%d\n", witness_watch(7));
    both(&left, &right);
    both(&right, &left);
    printf("%d\n", witness_watch(WITNESS_WATCH_OFF));
    printf("%d\n", witness_watch(WITNESS_WATCH_ON));
    both(&up, &down);
    both(&down, &up);
}

static void try_show(void)
{
    both(&left, &right);
    pthread_mutex_lock(&pool);
    pthread_mutex_lock(&journal);
    fflush(stdout);
    witness_show(1);
    pthread_mutex_unlock(&journal);
    pthread_mutex_unlock(&pool);
}

int main(int count, char **words)
{
    const char *word = count > 1 ? words[1] : "file";
    witness_start();
    if (strcmp(word, "defined") == 0)
        try_defined();
    else if (strcmp(word, "watch") == 0)
        try_watch();
    else if (strcmp(word, "show") == 0)
        try_show();
    else
        try_file();
    return 0;
}
