/*
 * Locks of one array, made in a loop: each has its own name, whichever is used first, and whichever was destroyed before
 * another was made. A lock in the heap has a number among those that were made with it.
 */
#include <pthread.h>
#include <stdlib.h>

enum { ROW = 8 };

static pthread_mutex_t row[ROW];
static pthread_mutex_t cell[ROW];
static pthread_mutex_t journal = PTHREAD_MUTEX_INITIALIZER;
static pthread_mutex_t *heap[ROW];

static void nested(pthread_mutex_t *first, pthread_mutex_t *second)
{
    pthread_mutex_lock(first);
    pthread_mutex_lock(second);
    pthread_mutex_unlock(second);
    pthread_mutex_unlock(first);
}

static void make_all(void)
{
    for (int i = 0; i < ROW; i++) {
        heap[i] = malloc(sizeof *heap[i]);
        pthread_mutex_init(&row[i], NULL);
        pthread_mutex_init(heap[i], NULL);
        if (i != 4)
            pthread_mutex_init(&cell[i == 5 ? 4 : i], NULL);
        if (i == 2) {
            nested(&journal, &cell[2]);
            pthread_mutex_destroy(&cell[2]);
        }
    }
}

int main(void)
{
    make_all();
    nested(&journal, &row[5]);
    nested(&row[3], &journal);
    nested(&cell[4], &journal);
    nested(&journal, heap[6]);
    nested(heap[3], &journal);
    return 0;
}
