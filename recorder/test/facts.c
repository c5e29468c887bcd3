/*
 * facts HOW COUNT: what the recorder's file tells of the pair of `pool` and `journal`, where the one is held and the other
 * is asked for.
 *   known    so many times
 *   shrinks  while others are held, each time fewer, in the end one of them as by a reader, and none; and all of them again
 *   threads  by so many threads
 *   anew     by a thread that makes so many others, after each of them
 *   spent    after so many other locks of their types were nested, both ways, by two threads
 *   seats    by so many threads, each of which has a pair of locks of its own
 */
#include <pthread.h>
#include <semaphore.h>
#include <stdlib.h>
#include <string.h>

enum { OTHERS = 6 };

static pthread_mutex_t pool = PTHREAD_MUTEX_INITIALIZER, journal = PTHREAD_MUTEX_INITIALIZER;
static pthread_mutex_t other[OTHERS] = {[0 ... OTHERS - 1] = PTHREAD_MUTEX_INITIALIZER};
static pthread_rwlock_t table = PTHREAD_RWLOCK_INITIALIZER;
static pthread_barrier_t done;
static sem_t went;

static void both(pthread_mutex_t *first, pthread_mutex_t *second)
{
    pthread_mutex_lock(first);
    pthread_mutex_lock(second);
    pthread_mutex_unlock(second);
    pthread_mutex_unlock(first);
}

/* While the table is held and so many others are. */
static void among(int others, int by_reader)
{
    if (by_reader)
        pthread_rwlock_rdlock(&table);
    else
        pthread_rwlock_wrlock(&table);
    for (int i = 0; i < others; i++)
        pthread_mutex_lock(&other[i]);
    both(&pool, &journal);
    for (int i = 0; i < others; i++)
        pthread_mutex_unlock(&other[i]);
    pthread_rwlock_unlock(&table);
}

static void *there(void *unused)
{
    both(&pool, &journal);
    return unused;
}

static void *nothing(void *unused)
{
    return unused;
}

static void run(void *(*function)(void *), void *argument)
{
    pthread_t thread;
    pthread_create(&thread, NULL, function, argument);
    pthread_join(thread, NULL);
}

static pthread_mutex_t *ledger(void)
{
    pthread_mutex_t *mutex = malloc(sizeof *mutex);
    pthread_mutex_init(mutex, NULL);
    return mutex;
}

static pthread_mutex_t *entry(void)
{
    pthread_mutex_t *mutex = malloc(sizeof *mutex);
    pthread_mutex_init(mutex, NULL);
    return mutex;
}

static void *own_pair(void *unused)
{
    both(ledger(), entry());
    return unused;
}

static pthread_mutex_t *last_ledger, *last_entry;

static void *forth(void *unused)
{
    both(last_ledger, last_entry);
    sem_post(&went);
    pthread_barrier_wait(&done);
    return unused;
}

static void *back(void *unused)
{
    both(last_entry, last_ledger);
    sem_post(&went);
    pthread_barrier_wait(&done);
    return unused;
}

static void spend(int count)
{
    pthread_t one, two;
    for (int i = 0; i < count; i++)
        both(ledger(), entry());
    last_ledger = ledger();
    last_entry = entry();
    pthread_create(&one, NULL, forth, NULL);
    sem_wait(&went);
    pthread_create(&two, NULL, back, NULL);
    pthread_join(one, NULL);
    pthread_join(two, NULL);
}

int main(int words, char **word)
{
    const char *how = words > 1 ? word[1] : "";
    int count = words > 2 ? atoi(word[2]) : 0;
    pthread_barrier_init(&done, NULL, 2);
    sem_init(&went, 0, 0);
    if (strcmp(how, "known") == 0)
        for (int i = 0; i < count; i++)
            both(&pool, &journal);
    for (int others = OTHERS; strcmp(how, "shrinks") == 0 && others >= 0; others -= 2)
        among(others, others == 0);
    if (strcmp(how, "shrinks") == 0) {
        both(&pool, &journal);
        among(OTHERS, 0);
    }
    for (int i = 0; strcmp(how, "threads") == 0 && i < count; i++)
        run(there, NULL);
    for (int i = 0; strcmp(how, "anew") == 0 && i <= count; i++) {
        both(&pool, &journal);
        run(nothing, NULL);
    }
    if (strcmp(how, "spent") == 0)
        spend(count);
    for (int i = 0; strcmp(how, "seats") == 0 && i < count; i++)
        run(own_pair, NULL);
    return 0;
}
