/*
 * The program's function at a report: it is called by the thread that asks, before the lock is asked for, outside the
 * library's mutex, and once for a pair of types. What it locks itself is not judged.
 */
#include <libwitness.h>
#include <pthread.h>
#include <stdio.h>
#include <string.h>

static pthread_mutex_t pool = PTHREAD_MUTEX_INITIALIZER;
static pthread_mutex_t journal = PTHREAD_MUTEX_INITIALIZER;
static pthread_mutex_t inner = PTHREAD_MUTEX_INITIALIZER;
static pthread_t asker;
static int calls;

/* Another thread's nested locks, of a new order: they are judged meanwhile. */
static void *other(void *unused)
{
    pthread_mutex_lock(&inner);
    pthread_mutex_lock(&pool);
    pthread_mutex_unlock(&pool);
    pthread_mutex_unlock(&inner);
    return unused;
}

static void reported(const struct witness_report *report, void *data)
{
    pthread_t thread;
    calls++;
    printf("kind %d, data %s, %s thread\n", report->kind, (const char *)data,
        pthread_equal(pthread_self(), asker) ? "the asking" : "another");
    printf("text begins \"%.20s\" and ends with %s\n", report->text,
        report->text[strlen(report->text) - 1] == '\n' ? "a newline" : "something else");
    printf("held at %s, asked at %s\n", strstr(report->held, "checkpoint+0x") == report->held ? "checkpoint" : report->held,
        strstr(report->asked, "checkpoint+0x") == report->asked ? "checkpoint" : report->asked);
    printf("the lock is %s\n", pthread_mutex_trylock(&pool) == 0 ? "free yet" : "taken");
    pthread_mutex_lock(&inner);
    pthread_mutex_unlock(&inner);
    pthread_mutex_unlock(&pool);
    pthread_create(&thread, NULL, other, NULL);
    pthread_join(thread, NULL);
}

static void checkpoint(void)
{
    pthread_mutex_lock(&journal);
    pthread_mutex_lock(&pool);
    pthread_mutex_unlock(&pool);
    pthread_mutex_unlock(&journal);
}

int main(void)
{
    printf("%s\n", witness_start() ? "awake" : "asleep");
    asker = pthread_self();
    witness_on_report(reported, "mine");
    pthread_mutex_lock(&pool);
    pthread_mutex_lock(&journal);
    pthread_mutex_unlock(&journal);
    pthread_mutex_unlock(&pool);
    checkpoint();
    checkpoint();
    printf("%d calls\n", calls);
    return 0;
}
