/*
 * Models of programs that can hang and hardly ever do, after bugs that were found: wrong MODEL.
 */
#include "model.h"

/* A library closes a socket, and the list after it; its shutdown takes the list, and then each socket (HawkNL). */
static mutex list = UNLOCKED;
static struct {
    mutex guard;
    int open;
} sock[16];

THREAD(client)
{
    for (int i = 0; i < 100; i++) {
        unsigned at = below(16);
        lock(&list);
        sock[at].open = 1;
        unlock(&list);
        work(100);
        lock(&sock[at].guard);
        lock(&list);
        unlock(&list);
        unlock(&sock[at].guard);
        nap(400);
    }
    return NULL;
}

THREAD(shutdown_once)
{
    nap(40000);
    lock(&list);
    for (int i = 0; i < 16; i++) {
        lock(&sock[i].guard);
        unlock(&sock[i].guard);
    }
    unlock(&list);
    return NULL;
}

static void hawknl(void)
{
    for (int i = 0; i < 16; i++)
        pthread_mutex_init(&sock[i].guard, NULL);
    RUN(client, shutdown_once);
}

/* A list of sessions, and a way that ends one: it takes the session's lock first (MySQL). */
static mutex sessions = UNLOCKED, session[8];

THREAD(connection)
{
    mutex *own = &session[(long)unused];
    for (int i = 0; i < 30; i++) {
        lock(&sessions);
        unlock(&sessions);
        nap(1000 + below(2000));
        if (i % 10 != 9)
            continue;
        lock(own);
        lock(&sessions);
        unlock(&sessions);
        unlock(own);
    }
    return NULL;
}

THREAD(processlist)
{
    for (int i = 0; i < 5; i++) {
        nap(15000);
        lock(&sessions);
        for (int at = 0; at < 8; at++) {
            lock(&session[at]);
            unlock(&session[at]);
        }
        unlock(&sessions);
    }
    return NULL;
}

static void mysql(void)
{
    for (int i = 0; i < 8; i++)
        pthread_mutex_init(&session[i], NULL);
    RUN(connection, connection, connection, connection, connection, connection, connection, connection, processlist);
}

/* A recursive lock that is made of two (SQLite, ticket 1672). */
static mutex whole = UNLOCKED, aux = UNLOCKED;
static int enters;

THREAD(reentering)
{
    nap(700 * (long)unused);
    for (int i = 0; i < 20; i++) {
        lock(&aux);
        lock(&whole);
        enters++;
        unlock(&aux);
        work(1);
        lock(&aux);
        enters--;
        unlock(&whole);
        unlock(&aux);
        nap(3000 + below(1000));
    }
    return NULL;
}

static void sqlite(void)
{
    RUN(reentering, reentering);
}

/* A queue and its idlers: the way from idlers to the queue is a rare one (Apache). */
static mutex queue = UNLOCKED, idlers = UNLOCKED;

THREAD(listener)
{
    for (int i = 0; i < 60; i++) {
        lock(&queue);
        lock(&idlers);
        unlock(&idlers);
        unlock(&queue);
        nap(1000);
    }
    return NULL;
}

THREAD(idler)
{
    for (int i = 0; i < 60; i++) {
        lock(&idlers);
        if (i % 25 == 20) {
            lock(&queue);
            unlock(&queue);
        }
        unlock(&idlers);
        nap(1100);
    }
    return NULL;
}

static void apache(void)
{
    RUN(listener, idler, idler);
}

/* Philosophers: at one place; and each at a place of its own. */
static mutex fork_of[5];

THREAD(philosopher)
{
    long left = (long)unused, right = (left + 1) % 5;
    for (int i = 0; i < 40; i++) {
        nap(1000 + below(1500));
        lock(&fork_of[left]);
        lock(&fork_of[right]);
        work(5);
        unlock(&fork_of[right]);
        unlock(&fork_of[left]);
    }
    return NULL;
}

static void table(void)
{
    for (int i = 0; i < 5; i++)
        pthread_mutex_init(&fork_of[i], NULL);
    RUN(philosopher, philosopher, philosopher, philosopher, philosopher);
}

static mutex one = UNLOCKED, two = UNLOCKED, three = UNLOCKED, four = UNLOCKED, five = UNLOCKED;
#define STEP(name, first, second)                                                                                      \
    THREAD(name)                                                                                                       \
    {                                                                                                                  \
        for (int i = 0; i < 25; i++) {                                                                                 \
            nap(1500 + below(2500));                                                                                   \
            lock(&first);                                                                                              \
            lock(&second);                                                                                             \
            work(5);                                                                                                   \
            unlock(&second);                                                                                           \
            unlock(&first);                                                                                            \
        }                                                                                                              \
        return NULL;                                                                                                   \
    }
STEP(step_1, one, two)
STEP(step_2, two, three)
STEP(step_3, three, four)
STEP(step_4, four, five)
STEP(step_5, five, one)

static void ring(void)
{
    RUN(step_1, step_2, step_3, step_4, step_5);
}

/* Readers of the configuration write the table; a reload reads the table and writes the configuration. */
static pthread_rwlock_t config = PTHREAD_RWLOCK_INITIALIZER, rows = PTHREAD_RWLOCK_INITIALIZER;

THREAD(reader)
{
    for (int i = 0; i < 40; i++) {
        pthread_rwlock_rdlock(&config);
        if (i % 5 == 0) {
            pthread_rwlock_wrlock(&rows);
            pthread_rwlock_unlock(&rows);
        }
        pthread_rwlock_unlock(&config);
        nap(1500 + below(1500));
    }
    return NULL;
}

THREAD(reload)
{
    for (int i = 0; i < 3; i++) {
        nap(20000);
        pthread_rwlock_rdlock(&rows);
        pthread_rwlock_wrlock(&config);
        pthread_rwlock_unlock(&config);
        pthread_rwlock_unlock(&rows);
    }
    return NULL;
}

static void rwlocks(void)
{
    RUN(reader, reader, reader, reload);
}

/* Transfers between two accounts, and between any of a hundred. */
static mutex account[100];

static void transfer(unsigned from, unsigned into)
{
    lock(&account[from]);
    lock(&account[into]);
    unlock(&account[into]);
    unlock(&account[from]);
}

THREAD(teller_of_two)
{
    long own = (long)unused;
    nap(1500 * own);
    for (int i = 0; i < 20; i++) {
        transfer((unsigned)own, (unsigned)(1 - own));
        nap(3000 + below(2000));
    }
    return NULL;
}

THREAD(teller_of_all)
{
    for (int i = 0; i < 150; i++) {
        unsigned from = below(100), into = below(100);
        if (from != into)
            transfer(from, into);
        nap(300 + below(500));
    }
    return NULL;
}

static void make_accounts(void)
{
    for (int i = 0; i < 100; i++)
        pthread_mutex_init(&account[i], NULL);
}

static void accounts(void)
{
    make_accounts();
    RUN(teller_of_two, teller_of_two);
}

static void bank(void)
{
    make_accounts();
    RUN(teller_of_all, teller_of_all, teller_of_all, teller_of_all);
}

/* A recursive registry, taken twice on the way to a session, whose end asks for the registry. */
static mutex registry, visit = UNLOCKED;

static void look_up(void)
{
    lock(&registry);
    unlock(&registry);
}

THREAD(notifies)
{
    for (int i = 0; i < 30; i++) {
        lock(&registry);
        look_up();
        lock(&visit);
        unlock(&visit);
        unlock(&registry);
        nap(2000 + below(1500));
    }
    return NULL;
}

THREAD(drops)
{
    for (int i = 0; i < 4; i++) {
        nap(18000);
        lock(&visit);
        look_up();
        unlock(&visit);
    }
    return NULL;
}

static void recursive(void)
{
    pthread_mutexattr_t attributes;
    pthread_mutexattr_init(&attributes);
    pthread_mutexattr_settype(&attributes, PTHREAD_MUTEX_RECURSIVE);
    pthread_mutex_init(&registry, &attributes);
    RUN(notifies, drops);
}

/* A wait for a condition keeps a lock that the one who signals asks for, under the condition's mutex. */
static mutex log_file = UNLOCKED, state = UNLOCKED;
static pthread_cond_t changed = PTHREAD_COND_INITIALIZER;

THREAD(waits_for_change)
{
    for (int i = 0; i < 4; i++) {
        struct timespec limit;
        clock_gettime(CLOCK_REALTIME, &limit);
        limit.tv_sec += 1000;
        lock(&log_file);
        lock(&state);
        pthread_cond_timedwait(&changed, &state, &limit);
        unlock(&state);
        unlock(&log_file);
        nap(3000);
    }
    return NULL;
}

static _Atomic int is_over;

THREAD(changes)
{
    for (int i = 0; !is_over; i++) {
        nap(2000);
        lock(&state);
        pthread_cond_signal(&changed);
        unlock(&state);
    }
    return NULL;
}

THREAD(logs_state)
{
    nap(9000);
    for (int i = 0; i < 3; i++) {
        /* As a rule nobody is in that wait: it tries first. */
        if (pthread_mutex_trylock(&log_file) == 0) {
            unlock(&log_file);
            lock(&state);
            lock(&log_file);
            unlock(&log_file);
            unlock(&state);
        }
        nap(4100);
    }
    return NULL;
}

static void condition(void)
{
    pthread_t signals;
    pthread_create(&signals, NULL, changes, NULL);
    RUN(waits_for_change, logs_state);
    is_over = 1;
    pthread_join(signals, NULL);
}

/* Connections and statements: a statement is closed under either (a driver for Java). */
static mutex connections = UNLOCKED, statements = UNLOCKED;

THREAD(executes)
{
    for (int i = 0; i < 40; i++) {
        lock(&statements);
        work(10);
        lock(&connections);
        unlock(&connections);
        unlock(&statements);
        nap(1700 + below(600));
    }
    return NULL;
}

THREAD(closes)
{
    for (int i = 0; i < 5; i++) {
        nap(14000);
        lock(&connections);
        lock(&statements);
        unlock(&statements);
        unlock(&connections);
    }
    return NULL;
}

static void jdbc(void)
{
    RUN(executes, closes);
}

/* One order three thousand times, the other once. */
static mutex journal = UNLOCKED, target = UNLOCKED;

THREAD(writes)
{
    for (int i = 0; i < 3000; i++) {
        lock(&journal);
        lock(&target);
        unlock(&target);
        unlock(&journal);
        work(20);
    }
    return NULL;
}

THREAD(rotates)
{
    nap(30000);
    lock(&target);
    lock(&journal);
    unlock(&journal);
    unlock(&target);
    return NULL;
}

static void rotate(void)
{
    RUN(writes, rotates);
}

/* A pool: tasks of both orders go to whichever worker is free. */
static mutex cache = UNLOCKED, store = UNLOCKED;
static _Atomic int task;

THREAD(worker)
{
    int own;
    while ((own = task++) < 80) {
        lock(own % 4 ? &cache : &store);
        lock(own % 4 ? &store : &cache);
        unlock(own % 4 ? &store : &cache);
        unlock(own % 4 ? &cache : &store);
        nap(1000 + below(1000));
    }
    return NULL;
}

static void pool(void)
{
    RUN(worker, worker);
}

/* One function takes all locks: the callers alone tell. */
static mutex left = UNLOCKED, right = UNLOCKED, plain[8];

__attribute__((noinline)) static void enter(mutex *m)
{
    lock(m);
    __asm__ volatile("" ::: "memory");
}

__attribute__((noinline)) static void leave(mutex *m)
{
    unlock(m);
    __asm__ volatile("" ::: "memory");
}

__attribute__((noinline)) static void harmless(unsigned at)
{
    enter(&plain[at]);
    enter(&plain[at + 1]);
    leave(&plain[at + 1]);
    leave(&plain[at]);
}

__attribute__((noinline)) static void left_first(void)
{
    enter(&left);
    enter(&right);
    leave(&right);
    leave(&left);
}

__attribute__((noinline)) static void right_first(void)
{
    enter(&right);
    enter(&left);
    leave(&left);
    leave(&right);
}

THREAD(helped)
{
    for (int i = 0; i < 400; i++) {
        harmless(below(7));
        if (!unused && i % 100 == 50)
            left_first();
        if (unused && i % 130 == 110)
            right_first();
        nap(150);
    }
    return NULL;
}

static void helper(void)
{
    for (int i = 0; i < 8; i++)
        pthread_mutex_init(&plain[i], NULL);
    RUN(helped, helped);
}

/* Each order once, far from one another. */
static mutex settings = UNLOCKED, output = UNLOCKED;

THREAD(starts_far)
{
    nap(5000);
    lock(&settings);
    lock(&output);
    unlock(&output);
    unlock(&settings);
    nap(400000);
    return NULL;
}

THREAD(stops_far)
{
    nap(305000);
    lock(&output);
    lock(&settings);
    unlock(&settings);
    unlock(&output);
    return NULL;
}

static void far(void)
{
    RUN(starts_far, stops_far);
}

/* And the way to the second one takes the first lock, so that a pause under that bars it. */
THREAD(starts_near)
{
    nap(5000);
    lock(&settings);
    lock(&output);
    unlock(&output);
    unlock(&settings);
    nap(60000);
    return NULL;
}

THREAD(stops_near)
{
    for (int i = 0; i < 7; i++) {
        lock(&settings);
        unlock(&settings);
        nap(5000);
    }
    lock(&output);
    lock(&settings);
    unlock(&settings);
    unlock(&output);
    return NULL;
}

static void needs(void)
{
    RUN(starts_near, stops_near);
}

/* Three types, one of the orders once, with traffic on all locks. */
static mutex red = UNLOCKED, green = UNLOCKED, blue = UNLOCKED;

THREAD(red_green)
{
    for (int i = 0; i < 60; i++) {
        lock(&red);
        lock(&green);
        unlock(&green);
        unlock(&red);
        nap(1200);
    }
    return NULL;
}

THREAD(green_blue)
{
    for (int i = 0; i < 60; i++) {
        lock(&green);
        lock(&blue);
        unlock(&blue);
        unlock(&green);
        nap(1300);
        lock(&blue);
        work(3);
        unlock(&blue);
    }
    return NULL;
}

THREAD(blue_red)
{
    for (int i = 0; i < 60; i++) {
        lock(&red);
        unlock(&red);
        if (i == 30) {
            lock(&blue);
            lock(&red);
            unlock(&red);
            unlock(&blue);
        }
        nap(1250);
    }
    return NULL;
}

static void colours(void)
{
    RUN(red_green, green_blue, blue_red);
}

int main(int count, char **words)
{
    static const struct model models[] = {
        {"hawknl", hawknl},       {"mysql", mysql},         {"sqlite", sqlite}, {"apache", apache}, {"table", table},
        {"ring", ring},           {"rwlocks", rwlocks},     {"accounts", accounts}, {"recursive", recursive},
        {"condition", condition}, {"jdbc", jdbc},           {"rotate", rotate}, {"pool", pool},     {"helper", helper},
        {"far", far},             {"needs", needs},         {"colours", colours}, {"bank", bank},
    };
    (void)count;
    return run_model(models, sizeof models / sizeof *models, words);
}
