/*
 * errands: a thread that gets and lets go locks in no sequence of their own, and what its child does after a fork. Beside each
 * request that tells a new pair stands what it has got and let go by then.
 */
#include <pthread.h>
#include <sys/wait.h>
#include <unistd.h>

static pthread_mutex_t a = PTHREAD_MUTEX_INITIALIZER, b = PTHREAD_MUTEX_INITIALIZER;
static pthread_mutex_t c = PTHREAD_MUTEX_INITIALIZER, d = PTHREAD_MUTEX_INITIALIZER;
static pthread_rwlock_t r = PTHREAD_RWLOCK_INITIALIZER;

static void goes_on(void)
{
    pthread_mutex_lock(&a);
    for (int i = 0; i < 3; i++) {
        pthread_mutex_lock(&b); /* a */
        pthread_mutex_unlock(&b);
    }
    pthread_rwlock_rdlock(&r); /* a, b and not b */
    pthread_mutex_unlock(&a);
    pthread_mutex_trylock(&b);
    pthread_mutex_lock(&c); /* a, b, not b, r, not a, b tried */
    pthread_rwlock_unlock(&r);
    pthread_mutex_lock(&a); /* these, c, not r */
    pthread_mutex_unlock(&b);
    pthread_mutex_unlock(&c);
    pthread_mutex_lock(&d); /* these, a, not b, not c */
    pthread_mutex_unlock(&d);
    pthread_mutex_unlock(&a);
}

int main(void)
{
    goes_on();
    /* What was had before isn't told any more. */
    pthread_mutex_lock(&d);
    pthread_mutex_lock(&c);
    pthread_mutex_lock(&b); /* d, c */
    pthread_mutex_unlock(&c);
    pid_t child = fork();
    if (child == 0)
        pthread_mutex_lock(&a); /* not known */
    else
        waitpid(child, NULL, 0);
    return 0;
}
