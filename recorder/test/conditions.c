/*
 * keep holds `outer` and waits for a condition, whose mutex is `inner`. Words say what comes then:
 *   signalled, unsignalled, timed   another thread has `inner` and asks for `outer`; and signals, doesn't, or the time is over
 *   known                           as signalled, where all orders were seen before
 *   two                             a thread in between has `inner`, and waits for a condition whose mutex the other one has
 *   ends                            no circle: a thread has `inner` and `second` for long, and then signals; meanwhile threads
 *                                   wait for `outer` and for `second`
 *   left                            no circle: a handler of signals leaves the wait by a jump
 */
#include <pthread.h>
#include <setjmp.h>
#include <signal.h>
#include <stdio.h>
#include <string.h>
#include <time.h>
#include <unistd.h>

static pthread_mutex_t outer = PTHREAD_MUTEX_INITIALIZER, inner = PTHREAD_MUTEX_INITIALIZER;
static pthread_mutex_t second = PTHREAD_MUTEX_INITIALIZER, third = PTHREAD_MUTEX_INITIALIZER;
static pthread_mutex_t fourth = PTHREAD_MUTEX_INITIALIZER;
static pthread_cond_t woken = PTHREAD_COND_INITIALIZER, never = PTHREAD_COND_INITIALIZER;
static pthread_barrier_t barrier, next;
static const char *word;

static int is(const char *wanted)
{
    return strcmp(word, wanted) == 0;
}

static sigjmp_buf back;

static void leave(int number)
{
    (void)number;
    siglongjmp(back, 1);
}

/* What stood below the caller in the stack is overwritten. */
static void overwrite_stack(void)
{
    volatile char many[8192];
    for (size_t i = 0; i < sizeof many; i++)
        many[i] = (char)0x55;
}

static struct timespec after(long milliseconds)
{
    struct timespec time;
    clock_gettime(CLOCK_REALTIME, &time);
    time.tv_sec += milliseconds / 1000;
    time.tv_nsec += milliseconds % 1000 * 1000000;
    if (time.tv_nsec >= 1000000000) {
        time.tv_sec++;
        time.tv_nsec -= 1000000000;
    }
    return time;
}

static void *keep(void *unused)
{
    struct timespec limit = after(300);
    pthread_mutex_lock(&outer);
    pthread_mutex_lock(&inner);
    pthread_barrier_wait(&barrier);
    if (sigsetjmp(back, 1) != 0) {
        overwrite_stack();
        sleep(3);
        pthread_mutex_unlock(&outer);
        return unused;
    }
    if (is("timed"))
        pthread_cond_timedwait(&never, &inner, &limit);
    else
        pthread_cond_wait(&woken, &inner);
    pthread_mutex_unlock(&inner);
    pthread_mutex_unlock(&outer);
    return unused;
}

/* Takes `inner` once the other thread waits. */
static void take_inner(void)
{
    pthread_barrier_wait(&barrier);
    pthread_mutex_lock(&inner);
}

static void *wake(void *unused)
{
    take_inner();
    if (is("signalled") || is("known"))
        pthread_cond_signal(&woken);
    pthread_mutex_lock(&outer);
    pthread_mutex_unlock(&outer);
    pthread_mutex_unlock(&inner);
    return unused;
}

static void *wait_between(void *unused)
{
    pthread_mutex_lock(&second);
    take_inner();
    pthread_barrier_wait(&next);
    pthread_cond_wait(&never, &second);
    pthread_mutex_unlock(&inner);
    pthread_mutex_unlock(&second);
    return unused;
}

static void *take_second(void *unused)
{
    pthread_barrier_wait(&next);
    pthread_mutex_lock(&second);
    pthread_mutex_lock(&outer);
    pthread_mutex_unlock(&outer);
    pthread_mutex_unlock(&second);
    return unused;
}

static void *signal_late(void *unused)
{
    take_inner();
    pthread_mutex_lock(&second);
    pthread_barrier_wait(&next);
    sleep(3);
    pthread_cond_signal(&woken);
    pthread_mutex_unlock(&second);
    pthread_mutex_unlock(&inner);
    return unused;
}

static void *drive_out(void *keeper)
{
    take_inner();
    pthread_mutex_unlock(&inner);
    pthread_kill(*(pthread_t *)keeper, SIGUSR1);
    return NULL;
}

static void *ask(void *lock)
{
    pthread_mutex_t *mine = lock == &outer ? &third : &fourth;
    pthread_mutex_lock(mine);
    pthread_mutex_lock(lock);
    pthread_mutex_unlock(lock);
    pthread_mutex_unlock(mine);
    return NULL;
}

/* Nobody else is there: the order is known from now on. */
static void take_both(pthread_mutex_t *first, pthread_mutex_t *after_it)
{
    pthread_mutex_lock(first);
    pthread_mutex_lock(after_it);
    pthread_mutex_unlock(after_it);
    pthread_mutex_unlock(first);
}

int main(int count, char **words)
{
    pthread_t threads[4];
    int made = 0;
    word = count > 1 ? words[1] : "signalled";
    if (is("known")) {
        take_both(&inner, &outer);
        take_both(&outer, &inner);
    }
    if (is("ends")) {
        take_both(&third, &outer);
        take_both(&fourth, &second);
    }
    signal(SIGUSR1, leave);
    pthread_barrier_init(&barrier, NULL, 2);
    pthread_barrier_init(&next, NULL, 2);
    pthread_create(&threads[made++], NULL, keep, NULL);
    pthread_create(&threads[made++], NULL,
        is("two") ? wait_between : is("ends") ? signal_late : is("left") ? drive_out : wake, &threads[0]);
    if (is("two"))
        pthread_create(&threads[made++], NULL, take_second, NULL);
    if (is("ends")) {
        pthread_barrier_wait(&next);
        pthread_create(&threads[made++], NULL, ask, &outer);
        pthread_create(&threads[made++], NULL, ask, &second);
    }
    if (is("left"))
        pthread_create(&threads[made++], NULL, ask, &outer);
    while (made > 0)
        pthread_join(threads[--made], NULL);
    puts("ended");
    return 0;
}
