#include "interrupts.h"

#include <signal.h>
#include <stddef.h>
#include <stdlib.h>

enum { CAUGHT = 3 };
static const int caught[CAUGHT] = {SIGINT, SIGTERM, SIGHUP};
static struct sigaction before[CAUGHT], size_before;
static volatile sig_atomic_t came;

static void note(int number)
{
    came = number;
}

void interrupts_catch(void)
{
    struct sigaction action = {.sa_handler = note}, ignoring = {.sa_handler = SIG_IGN};
    for (size_t i = 0; i < CAUGHT; i++)
        if (sigaction(caught[i], NULL, &before[i]) == 0 && before[i].sa_handler != SIG_IGN)
            sigaction(caught[i], &action, NULL);
    sigaction(SIGXFSZ, &ignoring, &size_before);
}

void interrupts_heed(void)
{
    if (came)
        exit(came == SIGHUP ? 128 + SIGTERM : 128 + came);
}

void interrupts_leave(void)
{
    for (size_t i = 0; i < CAUGHT; i++)
        sigaction(caught[i], &before[i], NULL);
    interrupts_heed();
}

void interrupts_restore(void)
{
    for (size_t i = 0; i < CAUGHT; i++)
        sigaction(caught[i], &before[i], NULL);
    sigaction(SIGXFSZ, &size_before, NULL);
}
