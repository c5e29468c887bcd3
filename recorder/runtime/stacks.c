/*
 * Stacks: the callers of a request, as numbers of places. A request that is new has one. When it is written it is too late
 * to look for the callers of what the thread holds: those are taken with the lock or never. So a place's first acquisitions
 * have their stacks, until as many as DETOUR_STACKS in a row brought no new one. A place that is done with is as quick as
 * without stacks. Where it was asked for, each acquisition has its stack, and takes the long way where that is new.
 *
 * Equal stacks are one. A stack that is there never changes, so it is found without the mutex.
 */
#include "recorder.h"

#include <string.h>

/* A number of one has room in a held lock. What is held leaves the other half to requests. */
enum { STACKS = 1 << 15, STACKS_HELD = STACKS / 2 };

struct stack {
    _Atomic uint32_t count; /* 0 where the slot is free; set last */
    uint32_t places[FRAMES_MOST];
    struct marks marks;
};

uint32_t frames_shown = 1;
bool stacks_all;
static struct stack *stacks;
static _Atomic uint32_t stacks_met;

bool stacks_made(void)
{
    stacks = frames_shown > 1 ? table(STACKS * sizeof *stacks) : NULL;
    return frames_shown == 1 || stacks != NULL;
}

/* The slot of the stack, or a free one for it. */
static uint32_t slot_of(const uint32_t *found, uint32_t count)
{
    uint64_t hash = count;
    for (uint32_t i = 0; i < count; i++)
        hash = (hash ^ found[i]) * 0x9e3779b97f4a7c15u;
    for (uint32_t slot = (uint32_t)(hash >> 40) % STACKS;; slot = (slot + 1) % STACKS) {
        const struct stack *stack = &stacks[slot];
        uint32_t there = atomic_load_explicit(&stack->count, memory_order_acquire);
        if (there == 0 || (there == count && memcmp(stack->places, found, count * sizeof *found) == 0))
            return slot;
    }
}

/* As stack_of; *is_new becomes true where the stack wasn't there before. */
static uint32_t stack_found(struct caller caller, bool *is_new)
{
    uint32_t found[FRAMES_MOST];
    if (!stacks || caller.pc == 0)
        return 0;
    uint32_t count = callers(caller, frames_shown, found);
    if (count == 0 || found[0] == 0)
        return 0;
    uint32_t slot = slot_of(found, count);
    if (atomic_load(&stacks[slot].count) != 0)
        return slot + 1;
    ENTERS_OR return 0;
    slot = slot_of(found, count);
    if (stacks[slot].count != 0)
        return slot + 1;
    if (stacks_met >= STACKS / 4 * 3)
        return 0;
    stacks_met++;
    memcpy(stacks[slot].places, found, count * sizeof *found);
    atomic_store_explicit(&stacks[slot].count, count, memory_order_release);
    *is_new = true;
    return slot + 1;
}

/* The number of the callers' stack; 0 where none is wanted, or there is no room. No mutex is held. */
COLD uint32_t stack_of(struct caller caller)
{
    bool is_new;
    return stack_found(caller, &is_new);
}

/* The stack's number where it was met, and where it begins; 0 where it is new, or a steered run may pause there. */
uint32_t stack_met(struct caller caller, uint32_t *place)
{
    uint32_t found[FRAMES_MOST];
    uint32_t count = stacks ? callers(caller, frames_shown, found) : 0;
    if (count == 0 || found[0] == 0 || detour_at(found[0]) >= DETOUR_PLANNED)
        return 0;
    uint32_t slot = slot_of(found, count);
    if (atomic_load_explicit(&stacks[slot].count, memory_order_acquire) == 0)
        return 0;
    *place = found[0];
    return slot + 1;
}

/* As stack_of, of an acquisition at the place; 0 where those there have none any more. */
COLD uint32_t stack_of_held(uint32_t place, struct caller caller)
{
    uint8_t left = place ? detour_at(place) : DETOUR_NONE;
    if (stacks_all)
        return stack_of(caller);
    if (left == DETOUR_NONE || left >= DETOUR_PLANNED)
        return 0;
    bool is_new = false;
    uint32_t number = stack_found(caller, &is_new);
    left = is_new ? DETOUR_STACKS : left - 1;
    if (stacks_met >= STACKS_HELD)
        left = 0;
    atomic_store_explicit(&place_at(place)->detour, left, memory_order_relaxed);
    return number;
}

/* `stack NUMBER PLACE..`, innermost first, once in a stream: before the first line that has it. Under the mutex. */
void stack_stands(uint32_t number)
{
    struct stack *stack = &stacks[number - 1];
    uint32_t *written = mark(&stack->marks);
    if (*written)
        return;
    *written = 1;
    for (uint32_t i = 0; i < stack->count; i++)
        place_number(stack->places[i]);
    line_put(WORD_STACK " %u", number);
    for (uint32_t i = 0; i < stack->count; i++)
        line_put(" %u", stack->places[i]);
    stream_append(false);
}
