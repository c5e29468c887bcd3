/* Mutexes in objects on the heap, which no call makes: one function locks two accounts, in another two are met. */
#include <pthread.h>
#include <stdlib.h>

struct account {
    long balance;
    pthread_mutex_t mutex;
};

static struct account *opened(void)
{
    static const pthread_mutex_t made = PTHREAD_MUTEX_INITIALIZER;
    struct account *account = calloc(1, sizeof *account);
    account->mutex = made;
    return account;
}

__attribute__((noinline)) static void transfer(struct account *from, struct account *to)
{
    pthread_mutex_lock(&from->mutex);
    pthread_mutex_lock(&to->mutex);
    to->balance += from->balance;
    pthread_mutex_unlock(&to->mutex);
    pthread_mutex_unlock(&from->mutex);
}

__attribute__((noinline)) static void refund(struct account *from, struct account *to)
{
    pthread_mutex_lock(&from->mutex);
    pthread_mutex_lock(&to->mutex);
    to->balance -= from->balance;
    pthread_mutex_unlock(&to->mutex);
    pthread_mutex_unlock(&from->mutex);
}

int main(void)
{
    struct account *cash = opened(), *credit = opened(), *other = opened(), *last = opened();
    transfer(cash, credit);
    refund(other, last);
    transfer(last, other);
    return 0;
}
