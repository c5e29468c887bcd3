/* Locks of arrays, of which some elements are used, and of a structure that is none. Each is taken under one lock. */
#include <pthread.h>

#define MEMBERS(_) _(a) _(b) _(c) _(d) _(e) _(f) _(g) _(h) _(i) _(j) _(k) _(l) _(m) _(n) _(o) _(p) _(q)
#define DECLARE(name) pthread_mutex_t name;
#define TAKE(name) take(&wide.name);

struct shelf {
    pthread_mutex_t lock, other;
};

static pthread_mutex_t outer = PTHREAD_MUTEX_INITIALIZER;
static pthread_mutex_t few[16], table[17], grid[4][5];
static struct shelf shelves[17];
static struct {
    MEMBERS(DECLARE)
} wide;

static void take(pthread_mutex_t *lock)
{
    pthread_mutex_lock(&outer);
    pthread_mutex_lock(lock);
    pthread_mutex_unlock(lock);
    pthread_mutex_unlock(&outer);
}

int main(void)
{
    take(&few[3]);
    take(&few[7]);
    take(&table[3]);
    take(&table[7]);
    take(&grid[1][3]);
    take(&grid[2][4]);
    take(&shelves[1].lock);
    take(&shelves[2].lock);
    take(&shelves[1].other);
    MEMBERS(TAKE)
    return 0;
}
