/*
 * A coroutine on a small stack, of so many bytes, makes each kind of call, and takes two mutexes in both orders. With a
 * second word: `handlers` has a handler of signals, `onstack` one on a stack of its own; `thread` does it on a thread of
 * PTHREAD_STACK_MIN, of whose stack so many bytes are left.
 */
#define _GNU_SOURCE
#include <limits.h>
#include <pthread.h>
#include <signal.h>
#include <stdint.h>
#include <stdio.h>
#include <stdlib.h>
#include <string.h>
#include <sys/mman.h>
#include <time.h>
#include <ucontext.h>

static pthread_mutex_t a = PTHREAD_MUTEX_INITIALIZER, b = PTHREAD_MUTEX_INITIALIZER;
static pthread_rwlock_t shared = PTHREAD_RWLOCK_INITIALIZER;
static pthread_spinlock_t spin;
static pthread_cond_t condition = PTHREAD_COND_INITIALIZER;
static ucontext_t outside, inside;
static const struct timespec past;

static void take(pthread_mutex_t *first, pthread_mutex_t *second)
{
    pthread_mutex_lock(first);
    pthread_mutex_lock(second);
    pthread_mutex_unlock(first);
    pthread_mutex_unlock(second);
}

static void call_all(void)
{
    pthread_mutex_t *made = malloc(sizeof *made);
    pthread_mutex_init(made, NULL);
    for (int i = 0; i < 3; i++) {
        pthread_mutex_lock(made);
        take(&a, &b);
        pthread_rwlock_rdlock(&shared);
        pthread_rwlock_unlock(&shared);
        pthread_mutex_unlock(made);
        pthread_spin_lock(&spin);
        pthread_spin_unlock(&spin);
        if (pthread_mutex_trylock(&a) == 0)
            pthread_mutex_unlock(&a);
        pthread_mutex_lock(&a);
        pthread_mutex_timedlock(&b, &past);
        pthread_cond_timedwait(&condition, &b, &past);
        pthread_mutex_unlock(&b);
        pthread_mutex_unlock(&a);
    }
    pthread_mutex_destroy(made);
    free(made);
    made = malloc(sizeof *made);
    memset(made, 0, sizeof *made);
    take(made, &a);
    free(made);
    take(&b, &a);
}

static void run_inside(void)
{
    call_all();
}

static void on_coroutine(size_t size)
{
    char *stack = mmap(NULL, 4096 + size, PROT_READ | PROT_WRITE, MAP_PRIVATE | MAP_ANONYMOUS, -1, 0);
    if (stack == MAP_FAILED || mprotect(stack, 4096, PROT_NONE) != 0)
        exit(2);
    getcontext(&inside);
    inside.uc_stack.ss_sp = stack + 4096;
    inside.uc_stack.ss_size = size;
    inside.uc_link = &outside;
    makecontext(&inside, run_inside, 0);
    swapcontext(&outside, &inside);
}

/* Goes down until so much is left above the lowest byte. */
static __attribute__((noinline)) void go_down(uintptr_t lowest, size_t left)
{
    volatile char used[64];
    used[0] = 1;
    if ((uintptr_t)used - lowest > left)
        go_down(lowest, left);
    else
        call_all();
    used[63] = 1;
}

static void *on_thread(void *left)
{
    pthread_attr_t attributes;
    void *lowest;
    size_t size;
    if (pthread_getattr_np(pthread_self(), &attributes) == 0 && pthread_attr_getstack(&attributes, &lowest, &size) == 0)
        go_down((uintptr_t)lowest, (size_t)(uintptr_t)left);
    pthread_attr_destroy(&attributes);
    return NULL;
}

static void noted(int number)
{
    (void)number;
}

int main(int count, char **words)
{
    size_t size = count > 1 ? (size_t)atoi(words[1]) : 4096;
    const char *way = count > 2 ? words[2] : "";
    struct sigaction action = {.sa_handler = noted, .sa_flags = strcmp(way, "onstack") == 0 ? SA_ONSTACK : 0};
    pthread_spin_init(&spin, PTHREAD_PROCESS_PRIVATE);
    if (strcmp(way, "handlers") == 0 || strcmp(way, "onstack") == 0)
        sigaction(SIGUSR1, &action, NULL);
    if (strcmp(way, "thread") == 0) {
        pthread_attr_t attributes;
        pthread_t thread;
        pthread_attr_init(&attributes);
        pthread_attr_setstacksize(&attributes, PTHREAD_STACK_MIN);
        if (pthread_create(&thread, &attributes, on_thread, (void *)(uintptr_t)size) != 0)
            return 2;
        pthread_join(thread, NULL);
    } else {
        on_coroutine(size);
    }
    puts("done");
    return 0;
}
