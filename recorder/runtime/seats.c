/*
 * Seats, and the numbers that types, locks and places have in a stream. All of it is under the mutex.
 *
 * A thread has a seat of its own, which nobody else gets as long as there are seats that none has had: then the seats of a
 * trace are its threads. After that a seat is lent to a thread while the stream has something that the thread holds or asks
 * for, and the line `lent` says that this has begun. A seat with nothing held and nothing pending is as good as new, so a
 * thread that ends has nothing to give back. The number of a lock that is gone is used again for a lock of the same name.
 */
#include "recorder.h"

#include <string.h>

/* Who had each seat last, and is named for it. */
static const struct thread *sitters[SEATS + 1];
static bool seats_lent[SEATS + 1];
static uint32_t seats_begun; /* that a thread has had */
static bool are_lent;        /* there were more threads than seats */
static uint32_t types_numbered;
static uint32_t locks_numbered;
/* Of each lock's number, acquisitions written and not yet unlocked, and requests pending. */
static uint32_t holders[LOCKS + 1];

uint32_t *mark(struct marks *marks)
{
    if (marks->life != life) {
        marks->number = 0;
        atomic_store_explicit(&marks->life, life, memory_order_release);
    }
    return &marks->number;
}

/* A seat for the thread: the one that it had, one that nobody has had, or one that is free now. More than SEATS for none. */
static uint32_t seat_for(const struct thread *thread)
{
    uint32_t seat = thread->last_seat;
    if (seat != 0 && !seats_lent[seat])
        return seat;
    if (seats_begun < SEATS)
        return ++seats_begun;
    for (seat = 1; seat <= SEATS && seats_lent[seat]; seat++)
        ;
    return seat;
}

bool seat_found(struct thread *thread)
{
    if (thread->seat)
        return true;
    uint32_t seat = seat_for(thread);
    if (seat > SEATS)
        return false;
    bool is_named = sitters[seat] == thread && thread->last_seat == seat;
    /* From here on a seat may be another thread's than the one that its last line `thread` tells of. */
    if (!is_named && sitters[seat] && !are_lent) {
        are_lent = true;
        write_line(WORD_LENT);
    }
    seats_lent[seat] = true;
    thread->seat = thread->last_seat = seat;
    sitters[seat] = thread;
    if (!is_named)
        write_thread(thread);
    return true;
}

bool seat_taken(struct thread *thread)
{
    bool found = seat_found(thread);
    if (!found)
        count_missed(MISSED_SEATS);
    return found;
}

/* Gives the seat back where nothing of the thread stands in the stream any longer. */
void seat_given_back(struct thread *thread)
{
    if (thread->written != 0)
        return;
    seats_lent[thread->seat] = false;
    thread->seat = 0;
}

/* False of a type that was met when the stream had room for no further one. */
bool type_fits(struct type *type)
{
    return *mark(&type->marks) != NUMBER_NONE;
}

uint32_t type_numbered(struct type *type)
{
    uint32_t *number = mark(&type->marks);
    if (*number == 0 && types_numbered == TYPES) {
        count_missed(MISSED_TYPES);
        *number = NUMBER_NONE;
    } else if (*number == 0) {
        *number = ++types_numbered;
        write_type(type);
    }
    return type_fits(type) ? *number : 0;
}

/*
 * The number of the lock, 0 where it has none in this stream. The thread has a seat and nothing pending. A lock that is
 * gone may still be held in the stream: then its number isn't used again.
 */
uint32_t lock_number(struct thread *thread, struct lock *lock)
{
    uint32_t *number = mark(&lock->marks);
    uint32_t *named = mark(&lock->name->marks);
    if (*number == 0) {
        if (!type_numbered(lock->type)) {
            *number = NUMBER_NONE;
        } else if (*named != 0 && holders[*named] == 0) {
            *number = *named;
        } else if (locks_numbered == LOCKS) {
            count_missed(MISSED_LOCKS);
            *number = NUMBER_NONE;
        } else {
            *number = *named = ++locks_numbered;
            write_init(thread, lock);
        }
    }
    return *number == NUMBER_NONE ? 0 : *number;
}

/*
 * As lock_number, for a pair of single locks: it takes none of the numbers that may be needed for the trace. What the thread
 * held may be another lock by now, which isn't made while a request is pending.
 */
uint32_t lock_number_for_pair(struct thread *thread, struct lock *lock)
{
    uint32_t number = *mark(&lock->marks);
    if (number == 0 && thread->seat != 0 && thread->asked == 0 && locks_numbered < LOCKS / 2)
        return lock_number(thread, lock);
    return number == NUMBER_NONE ? 0 : number;
}

/* The stream has the lock of that number held or asked for by the thread. */
void number_stands(struct thread *thread, uint32_t number)
{
    thread->written++;
    holders[number]++;
}

void number_stands_no_more(struct thread *thread, uint32_t number)
{
    thread->written--;
    holders[number]--;
    seat_given_back(thread);
}

bool number_has_others(struct lock *lock, uint32_t own)
{
    uint32_t number = *mark(&lock->marks);
    return number != 0 && number != NUMBER_NONE && holders[number] > own;
}

/* The number of the place, which stands in the stream from then on. */
uint32_t place_number(uint32_t place)
{
    if (place == 0)
        return 0;
    uint32_t *number = mark(&place_at(place)->marks);
    if (*number == 0) {
        *number = place;
        write_place(place);
    }
    return place;
}

/* The child's stream has nothing of the parent's: what its other threads held is held by nobody. */
void seats_forked(void)
{
    memset(sitters, 0, sizeof sitters);
    memset(seats_lent, 0, sizeof seats_lent);
    seats_begun = 0;
    are_lent = false;
    memset(holders, 0, (locks_numbered + 1) * sizeof *holders);
    types_numbered = locks_numbered = 0;
}
