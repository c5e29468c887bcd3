#include "lock_pairs.h"

#include <stdbool.h>
#include <stdlib.h>
#include <string.h>

#include "allocation.h"

/* A lock that it has got twice stands there twice. */
struct pair_holder {
    struct held_lock {
        uint32_t lock;
        size_t spot; /* where it was asked for last, or tried */
    } * held;
    size_t count, room;
    size_t asked_at; /* 0 where nothing is asked for */
};

void lock_pairs_end(struct lock_pairs *pairs)
{
    free(pairs->pair);
    *pairs = (struct lock_pairs){0};
}

void pairs_reading_end(struct pairs_reading *reading)
{
    for (size_t i = 0; i < reading->seats; i++)
        free(reading->seat[i].held);
    free(reading->seat);
    map_end(&reading->seen);
    *reading = (struct pairs_reading){0};
}

static struct pair_holder *holder_of(struct pairs_reading *reading, uint32_t seat)
{
    if (seat >= reading->seats) {
        size_t seats = (size_t)seat + 1;
        reading->seat = grow_zeroed(reading->seat, reading->seats, seats, sizeof *reading->seat);
        reading->seats = seats;
    }
    return &reading->seat[seat];
}

static bool has(const struct pair_holder *holder, uint32_t lock)
{
    for (size_t i = 0; i < holder->count; i++)
        if (holder->held[i].lock == lock)
            return true;
    return false;
}

void pairs_ask(struct pairs_reading *reading, struct lock_pairs *pairs, uint32_t seat, uint32_t lock, size_t spot)
{
    struct pair_holder *holder = holder_of(reading, seat);
    holder->asked_at = spot;
    if (has(holder, lock))
        return;
    for (size_t i = 0; i < holder->count; i++) {
        const struct held_lock *held = &holder->held[i];
        const uint32_t locks[] = {held->lock, lock};
        size_t *seen = map_add(&reading->seen, locks, sizeof locks);
        if ((*seen)++ == 0)
            ADD(pairs->pair, pairs->count, pairs->room) = (struct lock_pair){held->lock, lock, held->spot, spot};
    }
}

void pairs_give_up(struct pairs_reading *reading, uint32_t seat)
{
    holder_of(reading, seat)->asked_at = 0;
}

void pairs_try(struct pairs_reading *reading, uint32_t seat, uint32_t lock, size_t spot)
{
    struct pair_holder *holder = holder_of(reading, seat);
    for (size_t i = 0; i < holder->count; i++)
        if (holder->held[i].lock == lock)
            holder->held[i].spot = spot;
    ADD(holder->held, holder->count, holder->room) = (struct held_lock){lock, spot};
}

void pairs_get(struct pairs_reading *reading, uint32_t seat, uint32_t lock)
{
    pairs_try(reading, seat, lock, holder_of(reading, seat)->asked_at);
    pairs_give_up(reading, seat);
}

/* The last one of them. */
void pairs_release(struct pairs_reading *reading, uint32_t seat, uint32_t lock)
{
    struct pair_holder *holder = holder_of(reading, seat);
    size_t at = holder->count;
    while (at > 0 && holder->held[at - 1].lock != lock)
        at--;
    if (at == 0)
        return;
    memmove(holder->held + at - 1, holder->held + at, (holder->count - at) * sizeof *holder->held);
    holder->count--;
}
