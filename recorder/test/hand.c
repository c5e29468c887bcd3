/*
 * hand HOW COUNT: so many locks of one type. Four threads walk along them hand over hand, one after the other, and go on
 * until all have done so. Then one more does what HOW says: `forward`, it walks as they did; `back`, it holds a lock in the
 * middle and asks for the one before it; `far`, it holds the last one and asks for the first. With `ring` each of COUNT
 * threads holds a lock and asks for the next one, the last thread for the first lock.
 */
#include <pthread.h>
#include <semaphore.h>
#include <stdlib.h>
#include <string.h>

enum { WALKERS = 4, MOST = 64 };

static pthread_mutex_t **node;
static int count;
static pthread_barrier_t done;
static sem_t went;

static void wait_for_all(void)
{
    sem_post(&went);
    pthread_barrier_wait(&done);
}

static void take(int first, int second)
{
    pthread_mutex_lock(node[first]);
    pthread_mutex_lock(node[second]);
    pthread_mutex_unlock(node[second]);
    pthread_mutex_unlock(node[first]);
}

static void *walk(void *unused)
{
    pthread_mutex_lock(node[0]);
    for (int i = 1; i < count; i++) {
        pthread_mutex_lock(node[i]);
        pthread_mutex_unlock(node[i - 1]);
    }
    pthread_mutex_unlock(node[count - 1]);
    wait_for_all();
    return unused;
}

static void *step_back(void *unused)
{
    take(count / 2, count / 2 - 1);
    wait_for_all();
    return unused;
}

static void *step_far(void *unused)
{
    take(count - 1, 0);
    wait_for_all();
    return unused;
}

static void *dine(void *seat)
{
    int own = (int)(long)seat;
    take(own, (own + 1) % count);
    wait_for_all();
    return NULL;
}

int main(int words, char **word)
{
    pthread_t thread[MOST];
    const char *how = words > 2 ? word[1] : "";
    count = words > 2 ? atoi(word[2]) : 0;
    int threads = strcmp(how, "ring") == 0 ? count : WALKERS + 1;
    if (count < 2 || threads > MOST)
        return 2;
    node = calloc((size_t)count, sizeof *node);
    for (int i = 0; i < count; i++) {
        node[i] = malloc(sizeof *node[i]);
        pthread_mutex_init(node[i], NULL);
    }
    void *(*last)(void *) = *how == 'b' ? step_back : strcmp(how, "far") == 0 ? step_far : walk;
    sem_init(&went, 0, 0);
    pthread_barrier_init(&done, NULL, (unsigned)threads + 1);
    for (int i = 0; i < threads; i++) {
        void *(*does)(void *) = *how == 'r' ? dine : i < WALKERS ? walk : last;
        pthread_create(&thread[i], NULL, does, (void *)(long)i);
        sem_wait(&went);
    }
    pthread_barrier_wait(&done);
    for (int i = 0; i < threads; i++)
        pthread_join(thread[i], NULL);
    return 0;
}
