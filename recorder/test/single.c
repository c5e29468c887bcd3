/*
 * single HOW..: orders of locks of a few types, by single locks of them. Threads go on until all have done their part, but
 * with `apart`.
 */
#include <pthread.h>
#include <semaphore.h>
#include <stdio.h>
#include <stdlib.h>
#include <string.h>
#include <time.h>

enum { MANY = 40 };

struct both {
    void *first, *second, *gate;
};

static pthread_barrier_t done;
static sem_t took; /* a thread has taken its locks, and released them */
static int alone;

/* Each is a type, by the place where its locks are made. */
static pthread_mutex_t *account(void)
{
    pthread_mutex_t *mutex = malloc(sizeof *mutex);
    pthread_mutex_init(mutex, NULL);
    return mutex;
}

static pthread_mutex_t *branch(void)
{
    pthread_mutex_t *mutex = malloc(sizeof *mutex);
    pthread_mutex_init(mutex, NULL);
    return mutex;
}

static pthread_mutex_t *bank(void)
{
    pthread_mutex_t *mutex = malloc(sizeof *mutex);
    pthread_mutex_init(mutex, NULL);
    return mutex;
}

static void wait_for_all(void)
{
    sem_post(&took);
    if (!alone)
        pthread_barrier_wait(&done);
}

static void take(struct both *both)
{
    if (both->gate)
        pthread_mutex_lock(both->gate);
    pthread_mutex_lock(both->first);
    pthread_mutex_lock(both->second);
    pthread_mutex_unlock(both->second);
    pthread_mutex_unlock(both->first);
    if (both->gate)
        pthread_mutex_unlock(both->gate);
}

static void *take_both(void *argument)
{
    take(argument);
    wait_for_all();
    return NULL;
}

static void *take_for_a_time(void *argument)
{
    struct both *both = argument;
    struct timespec soon;
    clock_gettime(CLOCK_REALTIME, &soon);
    soon.tv_sec += 5;
    pthread_mutex_lock(both->first);
    if (pthread_mutex_timedlock(both->second, &soon) == 0)
        pthread_mutex_unlock(both->second);
    pthread_mutex_unlock(both->first);
    wait_for_all();
    return NULL;
}

static void *read_both(void *argument)
{
    struct both *both = argument;
    pthread_rwlock_rdlock(both->first);
    pthread_rwlock_rdlock(both->second);
    pthread_rwlock_unlock(both->second);
    pthread_rwlock_unlock(both->first);
    wait_for_all();
    return NULL;
}

/* The first lock as a reader, and the second one not. */
static void *read_and_write(void *argument)
{
    struct both *both = argument;
    pthread_rwlock_rdlock(both->first);
    pthread_rwlock_wrlock(both->second);
    pthread_rwlock_unlock(both->second);
    pthread_rwlock_unlock(both->first);
    wait_for_all();
    return NULL;
}

/* The gate as a reader: it keeps nobody else out. */
static void *take_among_readers(void *argument)
{
    struct both *both = argument, inner = {both->first, both->second, NULL};
    pthread_rwlock_rdlock(both->gate);
    take(&inner);
    pthread_rwlock_unlock(both->gate);
    wait_for_all();
    return NULL;
}

/* One thread after the other takes its locks, and all of them end after that. */
static void run(void *(*function[])(void *), struct both *both, int count)
{
    pthread_t thread[MANY + 1];
    pthread_barrier_init(&done, NULL, (unsigned)count + 1);
    for (int i = 0; i < count; i++) {
        pthread_create(&thread[i], NULL, function[i], &both[i]);
        sem_wait(&took);
        if (alone)
            pthread_join(thread[i], NULL);
    }
    wait_for_all();
    for (int i = 0; i < count && !alone; i++)
        pthread_join(thread[i], NULL);
}

static void run_two(void *(*one)(void *), void *(*other)(void *), struct both first, struct both second)
{
    run((void *(*[])(void *)){one, other}, (struct both[]){first, second}, 2);
}

static void try_many(void)
{
    alone = 1;
    for (int i = 0; i < MANY; i++)
        take_both(&(struct both){account(), branch(), NULL});
    take_both(&(struct both){branch(), account(), NULL});
}

static void try_three(void)
{
    pthread_mutex_t *a = account(), *b = branch(), *c = bank();
    run((void *(*[])(void *)){take_both, take_both, take_both}, (struct both[]){{a, b, NULL}, {b, c, NULL}, {c, a, NULL}}, 3);
}

/* The first thread asks for the last lock while it holds both others: how it came to the second doesn't matter. */
static void *take_three(void *argument)
{
    pthread_mutex_t **mutex = argument;
    struct timespec soon;
    clock_gettime(CLOCK_REALTIME, &soon);
    soon.tv_sec += 60;
    pthread_mutex_lock(mutex[0]);
    pthread_mutex_timedlock(mutex[1], &soon);
    pthread_mutex_lock(mutex[2]);
    for (int i = 3; i-- > 0;)
        pthread_mutex_unlock(mutex[i]);
    wait_for_all();
    return NULL;
}

static void *take_both_of_two(void *argument)
{
    pthread_mutex_t **mutex = argument;
    for (int i = 0; i < 2; i++) {
        pthread_mutex_lock(mutex[i]);
        pthread_mutex_lock(mutex[i + 1]);
        pthread_mutex_unlock(mutex[i + 1]);
        pthread_mutex_unlock(mutex[i]);
    }
    wait_for_all();
    return NULL;
}

/* One thread takes three locks in a row by the function, and another one the last and the first, under the second or not. */
static void try_row(void *(*take)(void *), int under)
{
    pthread_mutex_t *mutex[] = {account(), branch(), bank()};
    pthread_t one, other;
    pthread_barrier_init(&done, NULL, 3);
    pthread_create(&one, NULL, take, mutex);
    sem_wait(&took);
    pthread_create(&other, NULL, take_both, &(struct both){mutex[2], mutex[0], under ? mutex[1] : NULL});
    wait_for_all();
    pthread_join(one, NULL);
    pthread_join(other, NULL);
}

/* This thread takes its locks before it makes one that takes them the other way, or once more after that. */
static void try_early(struct both *both, struct both *back, int later)
{
    pthread_t thread;
    pthread_barrier_init(&done, NULL, 2);
    take(both);
    pthread_create(&thread, NULL, take_both, back);
    sem_wait(&took);
    if (later)
        take(both);
    wait_for_all();
    pthread_join(thread, NULL);
}

/* This thread takes its locks before it makes three that take them the other way, or of which one takes them so, too. */
static void try_begun(struct both *both, struct both *back, int again)
{
    take(both);
    alone = 1;
    run((void *(*[])(void *)){take_both, take_both, take_both}, (struct both[]){*back, *back, again ? *both : *back}, 3);
}

/* It doesn't come. */
static void wait_for_a_moment(pthread_mutex_t *mutex)
{
    static pthread_cond_t never = PTHREAD_COND_INITIALIZER;
    struct timespec soon;
    clock_gettime(CLOCK_REALTIME, &soon);
    soon.tv_sec += 1;
    pthread_cond_timedwait(&never, mutex, &soon);
}

static void *take_and_wait(void *argument)
{
    struct both *both = argument;
    sem_wait(&took);
    pthread_mutex_lock(both->first);
    pthread_mutex_lock(both->second);
    wait_for_a_moment(both->first);
    pthread_mutex_unlock(both->second);
    pthread_mutex_unlock(both->first);
    return NULL;
}

/* Takes the second lock under the first one, which it asks for again; and then, with a gate, under nothing. */
static void *take_under(void *argument)
{
    struct both *both = argument;
    sem_wait(&took);
    pthread_mutex_lock(both->first);
    pthread_mutex_lock(both->second);
    for (int i = 0; i < 2; i++) {
        pthread_mutex_unlock(both->first);
        pthread_mutex_lock(both->first);
    }
    pthread_mutex_unlock(both->first);
    if (both->gate) {
        pthread_mutex_unlock(both->second);
        pthread_mutex_lock(both->second);
        pthread_mutex_lock(both->first);
        pthread_mutex_unlock(both->first);
    }
    pthread_mutex_unlock(both->second);
    return NULL;
}

static void *take_after_wait(void *argument)
{
    struct both *both = argument;
    sem_wait(&took);
    pthread_mutex_lock(both->second);
    pthread_mutex_lock(both->first);
    pthread_mutex_unlock(both->first);
    pthread_mutex_unlock(both->second);
    return NULL;
}

/* This thread makes another one while it holds both locks, and waits for a condition with the first one. Then the other goes on. */
static void try_waits(void *(*function)(void *), struct both *both, struct both *back)
{
    pthread_t thread;
    pthread_mutex_lock(both->first);
    pthread_mutex_lock(both->second);
    pthread_create(&thread, NULL, function, back);
    wait_for_a_moment(both->first);
    pthread_mutex_unlock(both->second);
    pthread_mutex_unlock(both->first);
    sem_post(&took);
    pthread_join(thread, NULL);
}

static void try_readers(void *(*function)(void *))
{
    static pthread_rwlock_t table = PTHREAD_RWLOCK_INITIALIZER, index = PTHREAD_RWLOCK_INITIALIZER;
    run_two(function, function, (struct both){&table, &index, NULL}, (struct both){&index, &table, NULL});
}

int main(int count, char **words)
{
    const char *how = count > 1 ? words[1] : "";
    sem_init(&took, 0, 0);
    pthread_mutex_t *a = account(), *b = branch(), *other = account();
    struct both there = {a, b, NULL}, back = {b, a, NULL}, elsewhere = {branch(), account(), NULL};
    alone = strcmp(how, "apart") == 0 || strcmp(how, "one") == 0;
    if (strcmp(how, "locks") == 0 || strcmp(how, "apart") == 0)
        run_two(take_both, take_both, there, back);
    if (strcmp(how, "types") == 0)
        run_two(take_both, take_both, there, elsewhere);
    if (strcmp(how, "one") == 0 || strcmp(how, "anew") == 0) {
        take(&there);
        take(&back);
    }
    /* A thread is made that takes other locks. */
    if (strcmp(how, "alone") == 0 || strcmp(how, "anew") == 0) {
        alone = 1;
        run((void *(*[])(void *)){take_both}, (struct both[]){elsewhere}, 1);
        take(&there);
        take(&back);
    }
    if (strcmp(how, "gate") == 0) {
        there.gate = back.gate = bank();
        run_two(take_both, take_both, there, back);
    }
    if (strcmp(how, "timed") == 0)
        run_two(take_both, take_for_a_time, there, back);
    if (strcmp(how, "readers") == 0)
        try_readers(read_both);
    if (strcmp(how, "writers") == 0)
        try_readers(read_and_write);
    if (strcmp(how, "read-gate") == 0) {
        static pthread_rwlock_t door = PTHREAD_RWLOCK_INITIALIZER;
        there.gate = back.gate = &door;
        run_two(take_among_readers, take_among_readers, there, back);
    }
    if (strcmp(how, "many") == 0)
        try_many();
    if (strcmp(how, "three") == 0)
        try_three();
    if (strcmp(how, "through") == 0)
        try_row(take_three, 0);
    if (strcmp(how, "inner") == 0)
        try_row(take_three, 1);
    if (strcmp(how, "twice") == 0)
        try_row(take_both_of_two, 0);
    if (strcmp(how, "early") == 0 || strcmp(how, "later") == 0)
        try_early(&there, &back, how[0] == 'l');
    if (strcmp(how, "begun") == 0 || strcmp(how, "by-two") == 0)
        try_begun(&there, &back, how[1] == 'y');
    if (strcmp(how, "waits") == 0)
        try_waits(take_and_wait, &there, &back);
    if (strcmp(how, "woken") == 0)
        try_waits(take_after_wait, &there, &back);
    if (strcmp(how, "under") == 0 || strcmp(how, "not-under") == 0) {
        back.gate = how[0] == 'n' ? bank() : NULL;
        try_waits(take_under, &there, &back);
    }
    if (strcmp(how, "twins") == 0)
        run_two(take_both, take_both, (struct both){a, other, NULL}, (struct both){other, a, NULL});
    /* The second order comes when it is asked for. */
    if (strcmp(how, "asked") == 0) {
        alone = 1;
        run((void *(*[])(void *)){take_both}, (struct both[]){{a, other, NULL}}, 1);
        getchar();
        run((void *(*[])(void *)){take_both}, (struct both[]){{other, a, NULL}}, 1);
    }
    if (strcmp(how, "row") == 0)
        run_two(take_both, take_both, (struct both){a, other, NULL}, (struct both){a, other, NULL});
    return 0;
}
