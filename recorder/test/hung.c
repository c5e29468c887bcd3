/*
 * hung CASE: threads that wait for good, or seem to.
 *
 * `repeats`: one asks for what the other holds with a time limit, again and again. `both`: both do. `backs`: one does, and lets
 * go what it holds each time. `gives`: one asks with a limit thrice, and then no more.
 * `readers`: one reads and asks for a mutex; its holder reads, too, behind a writer. `twice`: one reads twice, and another one
 * writes in between. `shares`: as `readers`, but nobody writes.
 * `waits`: one waits for its own mutex. `given`: so it does for a little more than a second, until another one releases it.
 */
#define _GNU_SOURCE
#include <errno.h>
#include <pthread.h>
#include <stdio.h>
#include <string.h>
#include <time.h>
#include <unistd.h>

static pthread_mutex_t pool = PTHREAD_MUTEX_INITIALIZER, journal = PTHREAD_MUTEX_INITIALIZER;
static pthread_rwlock_t table = PTHREAD_RWLOCK_WRITER_NONRECURSIVE_INITIALIZER_NP;
static pthread_barrier_t both_hold;
static const char *wanted;

static int is(const char *word)
{
    return strcmp(wanted, word) == 0;
}

static void rest(long milliseconds)
{
    struct timespec time = {milliseconds / 1000, milliseconds % 1000 * 1000000};
    nanosleep(&time, NULL);
}

static int asked_for_a_time(pthread_mutex_t *mutex)
{
    struct timespec end;
    clock_gettime(CLOCK_REALTIME, &end);
    end.tv_nsec += 100000000;
    if (end.tv_nsec >= 1000000000) {
        end.tv_nsec -= 1000000000;
        end.tv_sec++;
    }
    return pthread_mutex_timedlock(mutex, &end);
}

/* Holds the one, and wants the other. */
static void insist(pthread_mutex_t *has, pthread_mutex_t *wants)
{
    pthread_mutex_lock(has);
    pthread_barrier_wait(&both_hold);
    while (asked_for_a_time(wants) == ETIMEDOUT)
        ;
    pthread_mutex_unlock(wants);
    pthread_mutex_unlock(has);
}

static void back_off(void)
{
    int is_first = 1;
    for (;;) {
        pthread_mutex_lock(&journal);
        if (is_first)
            pthread_barrier_wait(&both_hold);
        is_first = 0;
        if (asked_for_a_time(&pool) == 0)
            break;
        pthread_mutex_unlock(&journal);
        rest(1);
    }
    pthread_mutex_unlock(&pool);
    pthread_mutex_unlock(&journal);
}

static void give_up(void)
{
    pthread_mutex_lock(&journal);
    pthread_barrier_wait(&both_hold);
    for (int i = 0; i < 3; i++)
        if (asked_for_a_time(&pool) == 0)
            pthread_mutex_unlock(&pool);
    pthread_mutex_unlock(&journal);
}

static void *other(void *unused)
{
    if (is("repeats") || is("both"))
        insist(&journal, &pool);
    else if (is("backs"))
        back_off();
    else if (is("gives"))
        give_up();
    return unused;
}

static void *first(void *unused)
{
    if (is("both")) {
        insist(&pool, &journal);
        return unused;
    }
    pthread_mutex_lock(&pool);
    pthread_barrier_wait(&both_hold);
    if (is("backs"))
        rest(4000);
    pthread_mutex_lock(&journal);
    pthread_mutex_unlock(&journal);
    pthread_mutex_unlock(&pool);
    return unused;
}

static void *reader(void *unused)
{
    pthread_rwlock_rdlock(&table);
    pthread_barrier_wait(&both_hold);
    rest(is("twice") ? 500 : 0);
    if (is("twice"))
        pthread_rwlock_rdlock(&table);
    else
        pthread_mutex_lock(&pool);
    return unused;
}

static void *holder(void *unused)
{
    if (is("twice")) {
        pthread_barrier_wait(&both_hold);
        pthread_rwlock_wrlock(&table);
        return unused;
    }
    pthread_mutex_lock(&pool);
    pthread_barrier_wait(&both_hold);
    rest(500);
    pthread_rwlock_rdlock(&table);
    pthread_rwlock_unlock(&table);
    rest(is("shares") ? 4000 : 0);
    pthread_mutex_unlock(&pool);
    return unused;
}

static void *writer(void *unused)
{
    pthread_barrier_wait(&both_hold);
    if (is("readers"))
        pthread_rwlock_wrlock(&table);
    return unused;
}

static void *waiter(void *unused)
{
    pthread_mutex_lock(&journal);
    pthread_mutex_lock(&pool);
    pthread_barrier_wait(&both_hold);
    pthread_mutex_lock(&pool);
    rest(4000);
    return unused;
}

static void *releaser(void *unused)
{
    pthread_barrier_wait(&both_hold);
    rest(1300);
    if (is("given"))
        pthread_mutex_unlock(&pool);
    return unused;
}

int main(int count, char **words)
{
    pthread_t thread[3];
    int threads = 2;
    wanted = count > 1 ? words[1] : "repeats";
    int reads = is("readers") || is("twice") || is("shares"), waits = is("waits") || is("given");
    if (reads && !is("twice"))
        threads = 3;
    pthread_barrier_init(&both_hold, NULL, (unsigned)threads);
    pthread_create(&thread[0], NULL, reads ? reader : waits ? waiter : first, NULL);
    pthread_create(&thread[1], NULL, reads ? holder : waits ? releaser : other, NULL);
    if (threads == 3)
        pthread_create(&thread[2], NULL, writer, NULL);
    for (int i = 0; i < threads; i++)
        pthread_join(thread[i], NULL);
    puts("all went on");
    return 0;
}
