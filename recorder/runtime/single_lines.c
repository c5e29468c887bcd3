/*
 * The lines of pairs of single locks (single_pairs.c says what they mean).
 */
#include "single_pairs.h"

/* Behind what stands there. */
static void put_letters(const char *letters)
{
    if (*letters)
        line_put("%s", letters);
}

/* A lock in one of its roles: what stands for its mode, and a letter for each thing that is told of it. */
static void put_lock(struct thread *thread, struct lock *lock, bool is_shared, const char *how)
{
    line_put(" %u %u %u %c", lock_number_for_pair(thread, lock), lock->serial, type_numbered(lock->type),
        is_shared ? 's' : 'x');
    put_letters(how);
}

static const struct held *held_by_serial(const struct thread *thread, uint32_t beside)
{
    const struct held *held = thread->held;
    while (held->lock->serial != (beside & SERIAL_MOST))
        held++;
    return held;
}

/* What a line names is declared before it. */
static void declare(struct thread *thread, struct lock *lock)
{
    type_numbered(lock->type);
    lock_number_for_pair(thread, lock);
}

static void put_pair(const struct request *request, const struct held *held, const struct single_pair *pair, bool again)
{
    struct thread *thread = request->thread;
    line_put(WORD_PAIR " %u %u %u %u %u", thread->seat, (uint32_t)gettid(), atomic_load(&threads_made_and_joined),
        request->place, held->place);
    put_lock(thread, held->lock, held->mode == SHARED, held->tried ? "t" : "");
    put_letters(is_acquired_under(held, request->lock) ? "u" : "");
    put_lock(thread, request->lock, request->mode == SHARED,
        request->ends_wait     ? "w"
            : request->repeats ? "p"
            : request->timed   ? "l"
                               : "");
    put_letters(again ? "r" : "");
    put_letters(pair->thread[1] & MORE_THREADS ? "m" : "");
    put_letters(request->has_errand ? PAIR_HAS_ERRAND : "");
    for (uint32_t i = 0; i < BESIDES; i++) {
        uint32_t beside = atomic_load_explicit(&pair->beside[i], memory_order_relaxed);
        if (beside != 0)
            put_lock(thread, held_by_serial(thread, beside)->lock, beside & BESIDE_SHARED, "");
    }
    stream_append(false);
}

/* Before the request's first pair stands the errand, where that says more than each pair. */
static void tell_errand(struct request *request)
{
    if (request->has_errand || !errand_is_long(request->thread))
        return;
    write_errand(request->thread);
    request->has_errand = true;
}

/* A thread that has no seat tells of its pairs all the same. */
void write_pair(struct request *request, const struct held *held, const struct single_pair *pair, bool again)
{
    struct thread *thread = request->thread;
    if (!stream_has_room())
        return;
    seat_found(thread);
    tell_errand(request);
    place_number(request->place);
    place_number(held->place);
    declare(thread, held->lock);
    declare(thread, request->lock);
    for (uint32_t i = 0; i < BESIDES; i++)
        if (pair->beside[i] != 0)
            declare(thread, held_by_serial(thread, pair->beside[i])->lock);
    put_pair(request, held, pair, again);
    seat_given_back(thread);
}

void write_no_more_pairs(void)
{
    if (stream_has_room())
        write_line(WORD_MANY " 0");
}
