/*
 * What a program says of orders and of watching, and asks to be shown. An order may be named before its locks are
 * known: it is defined when both have a number in the stream.
 */
#include "judge_verifier.h"
#include "libwitness.h"

enum { WANTED_MOST = 1024, FIRST = 0, SECOND = 1 };

static struct wanted {
    uintptr_t address[2];
    uint32_t number[2]; /* 0 where the lock has none yet */
} wanted[WANTED_MOST];
static uint32_t wanted_count;

/*
 * The order is defined by a thread that has a seat and asks for nothing, where both locks have numbers. False where it
 * can't be, which is told.
 */
static bool defines(const struct thread *thread, const struct wanted *order)
{
    struct wit_place *place = judge_verifier();
    if (!place)
        return false;
    if (!order->number[FIRST] || !order->number[SECOND])
        return true;
    int64_t answer = wit_define_order(place, (uint16_t)thread->seat, order->number[FIRST], order->number[SECOND]);
    if (answer < 0)
        judge_has_news(answer == -21 ? NEWS_ONE_TYPE : answer == -20 ? NEWS_AGAINST : NEWS_UNDEFINED);
    return answer >= 0;
}

void orders_made(const struct thread *thread, uintptr_t address, uint32_t number)
{
    for (uint32_t i = 0; i < wanted_count; i++) {
        struct wanted *order = &wanted[i];
        bool is_one = false;
        for (int which = FIRST; which <= SECOND; which++)
            if (order->address[which] == address) {
                order->number[which] = number;
                is_one = true;
            }
        if (is_one)
            defines(thread, order);
    }
}

void orders_forked(void)
{
    for (uint32_t i = 0; i < wanted_count; i++)
        wanted[i].number[FIRST] = wanted[i].number[SECOND] = 0;
}

static bool is_kept(const struct wanted *order)
{
    for (uint32_t i = 0; i < wanted_count; i++)
        if (wanted[i].address[FIRST] == order->address[FIRST] && wanted[i].address[SECOND] == order->address[SECOND])
            return true;
    if (wanted_count == WANTED_MOST)
        return false;
    wanted[wanted_count++] = *order;
    return true;
}

/* What is known already has its number now. */
static bool order_named(struct thread *thread, struct wanted *order)
{
    if (!stream_has_room() || !seat_taken(thread))
        return false;
    for (int which = FIRST; which <= SECOND; which++) {
        struct lock *lock = lock_at((const void *)order->address[which]);
        order->number[which] = lock ? lock_number(thread, lock) : 0;
    }
    bool is_right = defines(thread, order);
    seat_given_back(thread);
    return is_right && is_kept(order);
}

EXPORT int witness_define_order(const volatile void *first, const volatile void *second)
{
    struct wanted order = {.address = {(uintptr_t)first, (uintptr_t)second}};
    bool named = false;
    if (!chain_opens(HERE))
        return 0;
    if (recorder_enters()) {
        named = order_named(&self, &order);
        recorder_leaves();
    }
    self.state = OPEN;
    return named;
}

EXPORT int witness_watch(int level)
{
    bool is_set = false;
    if (!chain_opens(HERE))
        return 0;
    if (recorder_enters()) {
        struct wit_place *place = judge_verifier();
        if (place && seat_taken(&self)) {
            is_set = wit_set_watch(place, (uint16_t)self.seat, level) >= 0;
            seat_given_back(&self);
        }
        recorder_leaves();
    }
    self.state = OPEN;
    return is_set;
}
