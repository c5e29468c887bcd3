/*
 * A mutex in memory that a handler of SIGSEGV brings when it is touched, and locks another one meanwhile. With a word the
 * handler has a stack of its own.
 */
#define _GNU_SOURCE
#include <pthread.h>
#include <signal.h>
#include <stdio.h>
#include <stdlib.h>
#include <sys/mman.h>
#include <unistd.h>

static char *page;
static int faults;
static pthread_mutex_t pages = PTHREAD_MUTEX_INITIALIZER;

static void bring(int number, siginfo_t *info, void *context)
{
    (void)number, (void)context;
    if ((char *)info->si_addr < page || (char *)info->si_addr >= page + 4096)
        _exit(9);
    pthread_mutex_lock(&pages);
    faults++;
    mprotect(page, 4096, PROT_READ | PROT_WRITE);
    pthread_mutex_unlock(&pages);
}

int main(int count, char **words)
{
    (void)words;
    struct sigaction action = {.sa_sigaction = bring, .sa_flags = SA_SIGINFO | (count > 1 ? SA_ONSTACK : 0)};
    stack_t own = {.ss_sp = malloc(1 << 14), .ss_size = 1 << 14};
    if (sigaltstack(&own, NULL) != 0 || sigaction(SIGSEGV, &action, NULL) != 0)
        return 2;
    page = mmap(NULL, 4096, PROT_NONE, MAP_PRIVATE | MAP_ANONYMOUS, -1, 0);
    if (page == MAP_FAILED)
        return 2;
    pthread_mutex_t *mutex = (pthread_mutex_t *)page;
    for (int i = 0; i < 3; i++) {
        pthread_mutex_lock(mutex);
        pthread_mutex_unlock(mutex);
    }
    printf("%d fault\n", faults);
    return 0;
}
