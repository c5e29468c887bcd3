/* A handler that takes locks, run hundreds of times in the midst of a thread that does nothing else. */
#include <pthread.h>
#include <signal.h>
#include <string.h>
#include <sys/time.h>

static pthread_mutex_t pool = PTHREAD_MUTEX_INITIALIZER;
static pthread_mutex_t journal = PTHREAD_MUTEX_INITIALIZER;
static pthread_mutex_t clock_tick = PTHREAD_MUTEX_INITIALIZER;
static pthread_mutex_t clock_list = PTHREAD_MUTEX_INITIALIZER;
static volatile sig_atomic_t ticks;

static void tick(int number)
{
    (void)number;
    pthread_mutex_lock(&clock_tick);
    pthread_mutex_lock(&clock_list);
    ticks++;
    pthread_mutex_unlock(&clock_list);
    pthread_mutex_unlock(&clock_tick);
}

int main(void)
{
    struct sigaction action;
    struct itimerval every = {{0, 100}, {0, 100}}, off = {{0, 0}, {0, 0}};
    memset(&action, 0, sizeof action);
    action.sa_handler = tick;
    action.sa_flags = SA_RESTART;
    sigaction(SIGALRM, &action, NULL);
    setitimer(ITIMER_REAL, &every, NULL);
    while (ticks < 500) {
        pthread_mutex_lock(&pool);
        pthread_mutex_lock(&journal);
        pthread_mutex_unlock(&journal);
        pthread_mutex_unlock(&pool);
    }
    setitimer(ITIMER_REAL, &off, NULL);
    return 0;
}
