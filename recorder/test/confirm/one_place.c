/*
 * Models of programs that take all their locks by one function: one_place MODEL. Threads come to that place often, and hardly
 * ever with the locks of the report.
 */
#include "model.h"

static mutex first = UNLOCKED, second = UNLOCKED;
static mutex own[8] = {UNLOCKED, UNLOCKED, UNLOCKED, UNLOCKED, UNLOCKED, UNLOCKED, UNLOCKED, UNLOCKED};

static void with_both(mutex *one, mutex *other)
{
    lock(one);
    lock(other);
    unlock(other);
    unlock(one);
}

/* Each thread takes locks of its own a hundred times, and then the two that both have, in an order of its own. */
THREAD(hardly)
{
    long number = (long)unused;
    mutex *const all[2][5] = {{&own[0], &own[1], &own[2], &own[3], &first}, {&own[4], &own[5], &own[6], &own[7], &second}};
    for (int i = 0; i < 120; i++) {
        mutex *one = i < 100 ? all[number][i % 3] : all[number][4];
        with_both(one, i < 100 ? all[number][i % 3 + 1] : all[!number][4]);
        nap(500 + below(1000));
    }
    return NULL;
}

static void ten(void)
{
    RUN(hardly, hardly);
}

/*
 * More philosophers than a plan has orders, at one place, each of whom eats once. The last two come while the others may
 * pause, one after the other: these meet only where both pause, too.
 */
enum { SEATS = 10 };
static mutex fork_at[SEATS] = {UNLOCKED, UNLOCKED, UNLOCKED, UNLOCKED, UNLOCKED, UNLOCKED, UNLOCKED, UNLOCKED, UNLOCKED, UNLOCKED};

THREAD(philosopher)
{
    long number = (long)unused;
    nap(number < SEATS - 2 ? 0 : number == SEATS - 2 ? 10000 : 25000);
    with_both(&fork_at[number], &fork_at[(number + 1) % SEATS]);
    return NULL;
}

static void table(void)
{
    RUN(philosopher, philosopher, philosopher, philosopher, philosopher, philosopher, philosopher, philosopher, philosopher,
        philosopher);
}

int main(int count, char **words)
{
    static const struct model models[] = {{"ten", ten}, {"table", table}};
    return run_model(models, count > 1 ? sizeof models / sizeof *models : 0, words);
}
