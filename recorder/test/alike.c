/*
 * alike WHAT: locks of types that the words of their lines don't tell apart, taken in both orders. With `second` only the
 * later ones of lines that look alike are taken.
 */
#include <pthread.h>
#include <stdlib.h>
#include <string.h>

struct page {
    pthread_mutex_t lock;
};

static pthread_mutex_t row[2];
static pthread_mutex_t queue = PTHREAD_MUTEX_INITIALIZER, all = PTHREAD_MUTEX_INITIALIZER;

static struct page *page_new(void)
{
    struct page *page = malloc(sizeof *page);
    pthread_mutex_init(&page->lock, NULL);
    return page;
}

static void both(pthread_mutex_t *first, pthread_mutex_t *second)
{
    pthread_mutex_lock(first);
    pthread_mutex_lock(second);
    pthread_mutex_unlock(second);
    pthread_mutex_unlock(first);
}

static void either(pthread_mutex_t *one, pthread_mutex_t *other)
{
    both(one, other);
    both(other, one);
}

/* Two types, by the lines that make them. */
static void take_pages(int is_second)
{
    struct page *pages[3];
    int i = 0;
    pages[i++] = page_new();
    pages[i++] = page_new();
    pages[i] = malloc(sizeof *pages[i]);
    /* page_new() isn't called by pages[i] = page_new() in a comment. */
    either(is_second ? &all : &pages[0]->lock, &pages[1]->lock);
}

/* Each line makes one element. */
static void take_row(void)
{
    pthread_mutex_init(&row[0], NULL);
    pthread_mutex_init(&row[1], NULL);
    either(&row[0], &row[1]);
}

static void make_again(void)
{
    pthread_mutex_destroy(&queue);
    pthread_mutex_init(&queue, NULL);
}

int main(int count, char **words)
{
    int is_second = count > 1 && strcmp(words[1], "second") == 0;
    take_pages(is_second);
    if (is_second)
        return 0;
    take_row();
    either(&queue, &all);
    make_again();
    either(&queue, &all);
    return 0;
}
