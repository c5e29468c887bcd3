/*
 * Semaphores: two that are locks, in opposite orders, by a wait and by one with a time limit; and others that aren't: one
 * of several, one that tells that something has come, and two that another thread posts, one of them while its holder
 * waits for it. With a word the first two hang.
 */
#include <assert.h>
#include <errno.h>
#include <pthread.h>
#include <semaphore.h>
#include <time.h>
#include <unistd.h>

static sem_t first, second, several, come, passed_on, awaited;

static void both(sem_t *outer, sem_t *inner)
{
    assert(sem_wait(outer) == 0);
    assert(sem_wait(inner) == 0);
    assert(sem_post(inner) == 0);
    assert(sem_post(outer) == 0);
}

static void *post(void *semaphore)
{
    sem_post(semaphore);
    return NULL;
}

static void posted_by_another(sem_t *semaphore)
{
    pthread_t other;
    pthread_create(&other, NULL, post, semaphore);
    pthread_join(other, NULL);
}

static void *post_late(void *semaphore)
{
    usleep(1500000);
    return post(semaphore);
}

/* It waits for longer than a second: a thread that waits for its own lock would be told by then. */
static void waits_for_another(void)
{
    pthread_t other;
    assert(sem_wait(&awaited) == 0);
    pthread_create(&other, NULL, post_late, &awaited);
    assert(sem_wait(&awaited) == 0);
    pthread_join(other, NULL);
    assert(sem_post(&awaited) == 0);
    both(&awaited, &first);
    both(&first, &awaited);
}

static void *hang(void *unused)
{
    sem_wait(&second);
    sleep(1);
    sem_wait(&first);
    return unused;
}

/* What a thread is answered that doesn't get what another one has. */
static void *refused(void *limit)
{
    assert(sem_trywait(&first) == -1 && errno == EAGAIN);
    assert(sem_timedwait(&second, limit) == -1 && errno == ETIMEDOUT);
    return NULL;
}

static void answers(void)
{
    pthread_t other;
    struct timespec limit;
    clock_gettime(CLOCK_REALTIME, &limit);
    assert(sem_wait(&first) == 0);
    assert(sem_timedwait(&second, &limit) == 0);
    pthread_create(&other, NULL, refused, &limit);
    pthread_join(other, NULL);
    assert(sem_post(&second) == 0 && sem_post(&first) == 0);
}

int main(int count, char **words)
{
    pthread_t other;
    sem_init(&first, 0, 1);
    sem_init(&second, 0, 1);
    sem_init(&several, 0, 2);
    sem_init(&come, 0, 0);
    sem_init(&passed_on, 0, 1);
    sem_init(&awaited, 0, 1);
    if (count > 1) {
        pthread_create(&other, NULL, hang, NULL);
        sem_wait(&first);
        sleep(1);
        sem_wait(&second);
    }
    answers();
    both(&second, &first);
    both(&several, &first);
    both(&first, &several);
    sem_post(&come);
    both(&come, &first);
    both(&first, &come);
    assert(sem_wait(&passed_on) == 0);
    posted_by_another(&passed_on);
    both(&passed_on, &first);
    both(&first, &passed_on);
    waits_for_another();
    sem_destroy(&first);
    sem_destroy(&second);
    return words[0] == NULL;
}
