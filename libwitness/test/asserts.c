/* What a program asserts of its locks: what holds is answered 1 and not told, all else is told and answered 0. */
#include <libwitness.h>
#include <pthread.h>
#include <stdio.h>

static pthread_mutex_t pool = PTHREAD_MUTEX_INITIALIZER;
static pthread_mutex_t journal = PTHREAD_MUTEX_INITIALIZER;
static pthread_mutex_t never = PTHREAD_MUTEX_INITIALIZER;
static pthread_rwlock_t table = PTHREAD_RWLOCK_INITIALIZER;
static pthread_mutex_t nested;

static void reported(const struct witness_report *report, void *data)
{
    (void)data;
    printf("kind %d: %s", report->kind, report->text);
}

static void *other(void *unused)
{
    printf("another thread: %d\n", witness_assert(&pool, WITNESS_UNLOCKED));
    printf("%d\n", witness_assert(&pool, WITNESS_LOCKED));
    printf("warned of %d\n", witness_warn("before a wait"));
    return unused;
}

static void try_mutex(void)
{
    pthread_t thread;
    pthread_mutex_lock(&pool);
    printf("held: %d %d %d\n", witness_assert(&pool, WITNESS_LOCKED), witness_assert(&pool, WITNESS_XLOCKED),
        witness_assert(&pool, WITNESS_XLOCKED | WITNESS_NOTRECURSED));
    printf("%d\n", witness_assert(&pool, WITNESS_UNLOCKED));
    printf("%d\n", witness_assert(&pool, WITNESS_SLOCKED));
    printf("%d\n", witness_assert(&pool, WITNESS_LOCKED | WITNESS_RECURSED));
    printf("%d\n", witness_assert(&pool, WITNESS_LOCKED | WITNESS_UNLOCKED));
    printf("%d\n", witness_assert(&pool, 1000));
    pthread_create(&thread, NULL, other, NULL);
    pthread_join(thread, NULL);
    pthread_mutex_unlock(&pool);
    printf("not held: %d\n", witness_assert(&pool, WITNESS_UNLOCKED));
    printf("%d\n", witness_assert(&pool, WITNESS_LOCKED));
    printf("never used: %d\n", witness_assert(&never, WITNESS_UNLOCKED));
    printf("%d\n", witness_assert(&never, WITNESS_XLOCKED));
}

static void try_recursion(void)
{
    pthread_mutexattr_t attributes;
    pthread_mutexattr_init(&attributes);
    pthread_mutexattr_settype(&attributes, PTHREAD_MUTEX_RECURSIVE);
    pthread_mutex_init(&nested, &attributes);
    for (int i = 0; i < 3; i++)
        pthread_mutex_lock(&nested);
    printf("thrice: %d\n", witness_assert(&nested, WITNESS_XLOCKED | WITNESS_RECURSED));
    printf("%d\n", witness_assert(&nested, WITNESS_XLOCKED | WITNESS_NOTRECURSED));
    for (int i = 0; i < 3; i++)
        pthread_mutex_unlock(&nested);
}

static void try_shared(void)
{
    pthread_rwlock_rdlock(&table);
    printf("shared: %d\n", witness_assert(&table, WITNESS_SLOCKED));
    printf("%d\n", witness_assert(&table, WITNESS_XLOCKED));
    pthread_rwlock_rdlock(&table);
    printf("twice: %d\n", witness_assert(&table, WITNESS_SLOCKED | WITNESS_RECURSED));
    printf("%d\n", witness_assert(&table, WITNESS_LOCKED | WITNESS_NOTRECURSED));
    pthread_rwlock_unlock(&table);
    pthread_rwlock_unlock(&table);
}

static void try_warnings(void)
{
    printf("none: %d\n", witness_warn("before a fork"));
    pthread_mutex_lock(&pool);
    pthread_rwlock_rdlock(&table);
    pthread_mutex_lock(&journal);
    printf("warned of %d\n", witness_warn("before a callback"));
    pthread_mutex_unlock(&pool);
    printf("warned of %d\n", witness_warn(NULL));
    /* The program's own words stay as they are. */
    printf("warned of %d\n", witness_warn("as told @ pool.c(put):0\nand @ pool+0x1(put+0x2):0\nhere"));
    pthread_mutex_unlock(&journal);
    pthread_rwlock_unlock(&table);
}

int main(void)
{
    witness_on_report(reported, NULL);
    try_mutex();
    try_recursion();
    try_shared();
    try_warnings();
    return 0;
}
