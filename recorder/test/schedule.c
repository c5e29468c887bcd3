/*
 * schedule HOW [COUNT]: two threads, one after the other, that go on until both have done their part. The first one asks for
 * `other` while it holds `one`, and the second one does so the other way; HOW says on which way they come there:
 *   `way`     both let go a third lock before
 *   `over`    each takes the other's lock first, and lets it go when it has its own
 *   `across`  the first one keeps a third lock, and has a fourth for a while before it asks; the second one keeps the fourth,
 *             and has the third for a while. Both try these
 *   `long`    the first one takes so many locks, one after the other, and lets each go
 *   `loop`    the first one takes one lock and lets it go, so many times
 *   `tried`   they try their first locks
 *   `queue`   five threads in place of two: each asks for the next one's lock
 *   `early`   the first thread makes the second one after it has asked so; then both do so under a third lock
 */
#include <pthread.h>
#include <semaphore.h>
#include <stdlib.h>
#include <string.h>

enum { MOST = 64, SEATS = 5 };

static pthread_mutex_t one = PTHREAD_MUTEX_INITIALIZER, other = PTHREAD_MUTEX_INITIALIZER;
static pthread_mutex_t third = PTHREAD_MUTEX_INITIALIZER, fourth = PTHREAD_MUTEX_INITIALIZER;
static pthread_mutex_t step[MOST], fork_of[SEATS];
static pthread_barrier_t done;
static sem_t went;
static const char *how;
static int count;

static int is(const char *word)
{
    return strcmp(how, word) == 0;
}

static void touch(pthread_mutex_t *mutex)
{
    pthread_mutex_lock(mutex);
    pthread_mutex_unlock(mutex);
}

static void waits_for_all(void)
{
    sem_post(&went);
    pthread_barrier_wait(&done);
}

/* It asks for one lock while it holds the other, and goes on its way to that. */
static void goes(pthread_mutex_t *own, pthread_mutex_t *asked, int is_first)
{
    pthread_mutex_t *kept = is_first ? &third : &fourth, *needed = is_first ? &fourth : &third;
    if (is("over"))
        pthread_mutex_lock(asked);
    if (is("way"))
        pthread_mutex_lock(&third);
    if (is("tried"))
        pthread_mutex_trylock(own);
    else
        pthread_mutex_lock(own);
    if (is("over"))
        pthread_mutex_unlock(asked);
    if (is("way"))
        pthread_mutex_unlock(&third);
    if (is("across")) {
        pthread_mutex_trylock(kept);
        if (pthread_mutex_trylock(needed) == 0)
            pthread_mutex_unlock(needed);
    }
    for (int i = 0; is_first && i < count; i++)
        touch(&step[is("long") ? i : 0]);
    touch(asked);
    pthread_mutex_unlock(own);
    if (is("across"))
        pthread_mutex_unlock(kept);
    waits_for_all();
}

static void *first(void *unused)
{
    goes(&one, &other, 1);
    return unused;
}

static void *second(void *unused)
{
    goes(&other, &one, 0);
    return unused;
}

static void *dine(void *seat)
{
    size_t left = (size_t)seat;
    pthread_mutex_lock(&fork_of[left]);
    touch(&fork_of[(left + 1) % SEATS]);
    pthread_mutex_unlock(&fork_of[left]);
    waits_for_all();
    return NULL;
}

static void take(pthread_mutex_t *own, pthread_mutex_t *asked)
{
    pthread_mutex_lock(own);
    touch(asked);
    pthread_mutex_unlock(own);
}

static void *take_back(void *unused)
{
    pthread_mutex_lock(&third);
    take(&other, &one);
    pthread_mutex_unlock(&third);
    waits_for_all();
    return unused;
}

static int go_early(void)
{
    pthread_t thread;
    pthread_barrier_init(&done, NULL, 2);
    take(&one, &other);
    pthread_create(&thread, NULL, take_back, NULL);
    sem_wait(&went);
    pthread_mutex_lock(&third);
    take(&one, &other);
    pthread_mutex_unlock(&third);
    pthread_barrier_wait(&done);
    return pthread_join(thread, NULL);
}

int main(int words, char **word)
{
    pthread_t thread[SEATS];
    how = word[1];
    count = words > 2 ? atoi(word[2]) : 0;
    int threads = is("queue") ? SEATS : 2;
    sem_init(&went, 0, 0);
    if (is("early"))
        return go_early();
    pthread_barrier_init(&done, NULL, (unsigned)threads);
    for (size_t i = 0; i < MOST; i++)
        pthread_mutex_init(&step[i], NULL);
    for (size_t i = 0; i < SEATS; i++)
        pthread_mutex_init(&fork_of[i], NULL);
    for (int i = 0; i < threads; i++) {
        pthread_create(&thread[i], NULL, is("queue") ? dine : i == 0 ? first : second, (void *)(size_t)i);
        sem_wait(&went);
    }
    for (int i = 0; i < threads; i++)
        pthread_join(thread[i], NULL);
    return 0;
}
