/*
 * Models of programs that look as if they could hang, and can't: right MODEL.
 */
#include "model.h"

static mutex one = UNLOCKED, two = UNLOCKED, outer = UNLOCKED;

static void both(mutex *first, mutex *second)
{
    lock(first);
    lock(second);
    unlock(second);
    unlock(first);
}

/* A lock above both. */
THREAD(gated)
{
    for (int i = 0; i < 50; i++) {
        lock(&outer);
        if (unused)
            both(&one, &two);
        else
            both(&two, &one);
        unlock(&outer);
        nap(1000);
    }
    return NULL;
}

static void gate(void)
{
    RUN(gated, gated);
}

/* The lower address first. */
static mutex account[20];

THREAD(teller)
{
    for (int i = 0; i < 200; i++) {
        unsigned from = below(20), into = below(20);
        if (from != into)
            both(&account[from < into ? from : into], &account[from < into ? into : from]);
        nap(300);
    }
    return NULL;
}

static void address(void)
{
    for (int i = 0; i < 20; i++)
        pthread_mutex_init(&account[i], NULL);
    RUN(teller, teller, teller, teller);
}

/* One thread ends before the other begins. */
THREAD(forward)
{
    for (int i = 0; i < 20; i++) {
        both(&one, &two);
        nap(500);
    }
    return NULL;
}

THREAD(backward)
{
    for (int i = 0; i < 20; i++) {
        both(&two, &one);
        nap(500);
    }
    return NULL;
}

static void join(void)
{
    RUN(forward);
    RUN(backward);
}

/* They take turns. */
static _Atomic int turn;

THREAD(in_turn)
{
    int own = unused != NULL;
    for (int i = 0; i < 40; i++) {
        while (turn != own)
            nap(50);
        if (own)
            both(&two, &one);
        else
            both(&one, &two);
        turn = !own;
    }
    return NULL;
}

static void value(void)
{
    RUN(in_turn, in_turn);
}

/* Phases that a barrier parts. */
static pthread_barrier_t phase;

THREAD(in_phases)
{
    for (int i = 0; i < 20; i++) {
        pthread_barrier_wait(&phase);
        if (!unused)
            both(&one, &two);
        pthread_barrier_wait(&phase);
        if (unused)
            both(&two, &one);
    }
    return NULL;
}

static void barrier(void)
{
    pthread_barrier_init(&phase, NULL, 2);
    RUN(in_phases, in_phases);
}

/* Buffers round and round, of which a count lets no more than three be in use. */
static mutex buffer[8];
static sem_t room;
static _Atomic unsigned next;

THREAD(writer)
{
    for (int i = 0; i < 80; i++) {
        sem_wait(&room);
        unsigned at = next++ % 8;
        both(&buffer[at], &buffer[(at + 1) % 8]);
        sem_post(&room);
        nap(500);
    }
    return NULL;
}

static void ring(void)
{
    sem_init(&room, 0, 3);
    for (int i = 0; i < 8; i++)
        pthread_mutex_init(&buffer[i], NULL);
    RUN(writer, writer, writer, writer, writer);
}

/* One thread takes both orders, others one of them. */
THREAD(both_ways)
{
    for (int i = 0; i < 40; i++) {
        both(&one, &two);
        both(&two, &one);
        nap(500);
    }
    return NULL;
}

THREAD(neither)
{
    for (int i = 0; i < 40; i++) {
        lock(&one);
        unlock(&one);
        nap(600);
    }
    return NULL;
}

static void alone(void)
{
    RUN(both_ways, neither);
}

/* One of the requests has a time limit. */
THREAD(limited)
{
    for (int i = 0; i < 60; i++) {
        struct timespec limit;
        clock_gettime(CLOCK_REALTIME, &limit);
        limit.tv_nsec += 3000000;
        if (limit.tv_nsec >= 1000000000) {
            limit.tv_nsec -= 1000000000;
            limit.tv_sec++;
        }
        lock(&two);
        if (pthread_mutex_timedlock(&one, &limit) == 0)
            unlock(&one);
        unlock(&two);
        nap(1100);
    }
    return NULL;
}

static void timed(void)
{
    RUN(forward, limited);
}

/* Readers alone wait for one another, and readers let one another in. */
static pthread_rwlock_t page = PTHREAD_RWLOCK_INITIALIZER, index_ = PTHREAD_RWLOCK_INITIALIZER;

THREAD(reads)
{
    pthread_rwlock_t *first = unused ? &page : &index_, *second = unused ? &index_ : &page;
    for (int i = 0; i < 60; i++) {
        pthread_rwlock_rdlock(first);
        pthread_rwlock_rdlock(second);
        pthread_rwlock_unlock(second);
        pthread_rwlock_unlock(first);
        nap(1000);
    }
    return NULL;
}

static void readers(void)
{
    RUN(reads, reads);
}

/*
 * Another thread releases the lock that the first one took, by a call that isn't seen, and a third one has it since then. A
 * list of what threads took has a circle for as long as that one does.
 */
static mutex handed = UNLOCKED, kept = UNLOCKED;
static sem_t taken, given, has_it, waits;
static int (*unseen_unlock)(mutex *);

THREAD(takes)
{
    lock(&handed);
    sem_post(&taken);
    sem_wait(&waits);
    lock(&kept);
    unlock(&kept);
    return NULL;
}

THREAD(gives)
{
    sem_wait(&taken);
    unseen_unlock(&handed);
    sem_post(&given);
    return NULL;
}

THREAD(has)
{
    sem_wait(&given);
    lock(&handed);
    sem_post(&has_it);
    nap(3000000);
    unlock(&handed);
    return NULL;
}

THREAD(keeps)
{
    sem_wait(&has_it);
    lock(&kept);
    sem_post(&waits);
    lock(&handed);
    unlock(&handed);
    unlock(&kept);
    return NULL;
}

static void handover(void)
{
    sem_init(&taken, 0, 0);
    sem_init(&given, 0, 0);
    sem_init(&has_it, 0, 0);
    sem_init(&waits, 0, 0);
    void *found = dlsym(dlopen("libc.so.6", RTLD_LAZY), "pthread_mutex_unlock");
    memcpy(&unseen_unlock, &found, sizeof found);
    RUN(takes, gives, has, keeps);
}

int main(int count, char **words)
{
    static const struct model models[] = {
        {"gate", gate},       {"address", address}, {"join", join},       {"value", value},     {"barrier", barrier},
        {"ring", ring},       {"alone", alone},     {"timed", timed},     {"readers", readers}, {"handover", handover},
    };
    (void)count;
    return run_model(models, sizeof models / sizeof *models, words);
}
