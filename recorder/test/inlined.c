/*
 * An init function that the compiler puts into its callers: the source has one type where all callers are one line, and
 * two where they are two, whatever the addresses. Compiled with and without inlining, the reports are the same.
 */
#include <pthread.h>
#include <stdlib.h>

struct page {
    pthread_mutex_t lock;
};

static inline void page_init(struct page *page)
{
    pthread_mutex_init(&page->lock, NULL);
}

static void both(struct page *first, struct page *second)
{
    pthread_mutex_lock(&first->lock);
    pthread_mutex_lock(&second->lock);
    pthread_mutex_unlock(&second->lock);
    pthread_mutex_unlock(&first->lock);
}

static inline struct page *page_new(void)
{
    struct page *page = malloc(sizeof *page);
    page_init(page);
    return page;
}

int main(void)
{
    struct page *first = page_new(), *file = malloc(sizeof *file);
    struct page *second = page_new();
    page_init(file);
    both(first, second);
    both(first, file);
    both(file, second);
    return 0;
}
