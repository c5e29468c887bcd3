/*
 * Places that are told by name, as a program without debug information or in another language tells them: a reversal of
 * two locks whose types have names, one of a lock whose type has none, and one with a mutex of pthread's. Two locks have no
 * address, and no name stays where it was. With a word on the command line more names are told before than there is room for.
 */
#include <pthread.h>
#include <stdio.h>
#include <string.h>

#define WITNESS_BY_NAME
#include "witness.h"

static char accounts, journal;
static pthread_mutex_t plain = PTHREAD_MUTEX_INITIALIZER;

static void take(const void *lock, unsigned line, const char *function)
{
    char file[32], by[32];
    strcpy(file, "a 100%\tbank.py");
    strcpy(by, function);
    witness_asked_at(lock, WITNESS_MUTEX, file, line, by);
    witness_acquired(lock);
    memset(file, 'x', sizeof file - 1);
    memset(by, 'y', sizeof by - 1);
}

static void tell_many(void)
{
    char file[32];
    for (int i = 0; i < 100000; i++) {
        snprintf(file, sizeof file, "%d.py", i);
        witness_asked_at(&accounts, WITNESS_MUTEX, file, 1, "many");
        witness_gave_up(&accounts);
    }
}

int main(int count, char **words)
{
    const void *moving[] = {witness_handle(), witness_handle()};
    if (count > 1)
        tell_many();
    witness_made_at(&accounts, WITNESS_MUTEX, "bank.py", 3, "Account", "Account.lock");
    for (int i = 0; i < 2; i++)
        witness_made_at(moving[i], WITNESS_MUTEX, "log.rs", 8, NULL, "Mutex<Log> (log.rs:8)");
    take(&accounts, 10, "transfer");
    take(moving[0], 11, "");
    witness_released(moving[0]);
    take(&journal, 12, "write");
    witness_released(&journal);
    witness_released(&accounts);
    take(moving[1], 20, "");
    take(&accounts, 21, "audit");
    witness_released_at(&accounts, "bank.py", 22, "audit");
    witness_released(moving[1]);
    take(&journal, 30, "flush");
    take(&accounts, 31, "flush");
    witness_released(&accounts);
    pthread_mutex_lock(&plain);
    pthread_mutex_unlock(&plain);
    witness_released(&journal);
    pthread_mutex_lock(&plain);
    witness_asked(&journal, WITNESS_MUTEX);
    witness_acquired(&journal);
    witness_released(&journal);
    pthread_mutex_unlock(&plain);
    witness_destroyed(moving[0]);
    witness_destroyed(moving[1]);
    return words[0] == NULL || (moving[0] != NULL && moving[0] == moving[1]);
}
