/*
 * The lines of errands (errand.h): what a thread got and let go, in its sequence.
 *
 * That is found backwards. After the last release so many locks were held; what stands in the chain from there on was got
 * later. A stream has room for a million steps of errands, some 20 MB. Of further ones, and of a long one, it is told that
 * they aren't known.
 */
#include "errand.h"

#include <string.h>

enum { STEPS_MOST = 400, STEPS_TOLD = 1 << 20 };

static uint32_t steps_told;

/* The child's stream has none of them yet. */
void errands_forked(void)
{
    steps_told = 0;
}

bool errand_is_long(const struct thread *thread)
{
    return thread->count > 1 || errand_releases(thread) != 0;
}

/* A lock that was got, as the number of its release has it; or that was let go. */
struct step {
    uint64_t lock;
    bool is_release;
};

/* Steps from the last one to the first; and what the thread had at that time. */
struct walk {
    struct step step[HELD_MOST + 2 * RELEASES_KEPT];
    uint32_t steps;
    uint64_t chain[HELD_MOST + RELEASES_KEPT];
    uint32_t count;
};

static void walk_back_to(struct walk *walk, uint32_t count)
{
    while (walk->count > count)
        walk->step[walk->steps++] = (struct step){walk->chain[--walk->count], false};
}

static void walk_back_over(struct walk *walk, uint64_t release)
{
    uint32_t later = release >> RELEASE_LATER & ((1u << LATER_BITS) - 1);
    walk_back_to(walk, release >> RELEASE_LEFT & ((1u << HELD_BITS) - 1));
    walk->step[walk->steps++] = (struct step){release, true};
    uint64_t *at = &walk->chain[walk->count++ - later];
    memmove(at + 1, at, later * sizeof *at);
    *at = release;
}

/* The steps of an errand of which all is known, from the last one on. */
static void walk_back(struct walk *walk, const struct thread *thread)
{
    walk->steps = 0;
    for (walk->count = 0; walk->count < thread->count; walk->count++)
        walk->chain[walk->count] = release_of(&thread->held[walk->count], 0, 0);
    for (uint32_t left = errand_releases(thread); left > 0; left--)
        walk_back_over(walk, thread->release[left]);
    walk_back_to(walk, 0);
}

static uint32_t serial_in(uint64_t lock)
{
    return (uint32_t)(lock & SERIAL_MOST);
}

static uint32_t place_in(uint64_t lock)
{
    return (uint32_t)(lock >> RELEASE_PLACE & ((1u << PLACE_BITS) - 1));
}

static void put_step(const struct step *step)
{
    if (step->is_release) {
        line_put(" " ERRAND_LETS_GO " %u", serial_in(step->lock));
        return;
    }
    const struct held how = {.how = step->lock >> RELEASE_HOW << 32};
    line_put(" %c", how.mode == SHARED ? 's' : 'x');
    if (how.tried)
        line_put("%c", ERRAND_TRIED);
    line_put(" %u %u", serial_in(step->lock), place_in(step->lock));
}

static void put_steps(const struct walk *walk)
{
    for (uint32_t left = walk->steps; left > 0; left--)
        put_step(&walk->step[left - 1]);
    stream_append(false);
}

void write_errand(const struct thread *thread)
{
    static struct walk walk; /* under the mutex */
    bool is_cut = errand_releases(thread) == RELEASES_KEPT;
    if (!is_cut)
        walk_back(&walk, thread);
    if (is_cut || walk.steps > STEPS_MOST || steps_told + walk.steps > STEPS_TOLD) {
        write_line(WORD_ERRAND " %u " ERRAND_CUT, (uint32_t)thread_number(thread));
        return;
    }
    steps_told += walk.steps;
    for (uint32_t i = 0; i < walk.steps; i++)
        place_number(place_in(walk.step[i].lock));
    line_put(WORD_ERRAND " %u", (uint32_t)thread_number(thread));
    put_steps(&walk);
}
