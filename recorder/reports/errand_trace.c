#include "errand_trace.h"

#include <inttypes.h>
#include <stdlib.h>

#include "allocation.h"

enum { LOCKS_IN_CHUNK = 5 };

const struct single_step *errand_has(const struct errand_seat *seat, uint32_t serial, size_t step)
{
    while (step-- > 0)
        if (seat->step[step].serial == serial)
            return seat->step[step].gets ? &seat->step[step] : NULL;
    return NULL;
}

/* What is got wasn't had, and what is let go was. */
static bool is_sound(const struct errand_seat *seat)
{
    const struct single_pair *pair = seat->fact->pair;
    for (size_t i = 0; i < seat->steps; i++)
        if (seat->step[i].gets == (errand_has(seat, seat->step[i].serial, i) != NULL))
            return false;
    return errand_has(seat, pair->held.serial, seat->steps) && !errand_has(seat, pair->asked.serial, seat->steps);
}

static size_t add_lock(struct errand_trace *trace, size_t circle, uint32_t serial)
{
    const size_t key[] = {circle, serial};
    size_t *number = map_add(&trace->numbers, key, sizeof key);
    if (*number == 0) {
        ADD(trace->lock, trace->locks, trace->lock_room) = (struct errand_lock){.circle = circle, .serial = serial};
        *number = trace->locks;
    }
    return *number;
}

bool errand_trace_adds(struct errand_trace *trace, const struct single *single, size_t circle, const struct fact *fact,
    const struct single_telling *telling)
{
    const struct single_errand *errand = &single->errand[telling->errand];
    struct errand_seat seat = {.circle = circle,
        .fact = fact,
        .telling = telling,
        .step = &single->step[errand->first],
        .steps = errand->steps};
    if (errand->is_cut || seat.steps > ERRAND_STEPS || trace->locks + seat.steps >= ERRAND_LOCKS || !is_sound(&seat))
        return false;
    ADD(trace->seat, trace->seats, trace->seat_room) = seat;
    for (size_t i = 0; i < seat.steps; i++)
        add_lock(trace, circle, seat.step[i].serial);
    size_t asked = add_lock(trace, circle, fact->pair->asked.serial);
    trace->lock[asked - 1].is_asked = true;
    return true;
}

size_t errand_lock_number(const struct errand_trace *trace, const struct errand_seat *seat, uint32_t serial)
{
    const size_t key[] = {seat->circle, serial};
    return map_find(&trace->numbers, key, sizeof key);
}

static int by_telling(const void *left, const void *right)
{
    const struct errand_seat *one = left, *other = right;
    if (one->circle != other->circle)
        return one->circle < other->circle ? -1 : 1;
    return one->telling < other->telling ? -1 : one->telling > other->telling;
}

static char letter_of(bool shared)
{
    return shared ? 's' : 'x';
}

static void write_head(const struct errand_trace *trace, FILE *to)
{
    size_t chunks = 0, types = 1;
    for (size_t i = 0; i < trace->seats; i++)
        chunks += trace->seat[i].steps / LOCKS_IN_CHUNK + 1;
    for (size_t i = 0; i < trace->locks; i++)
        types += trace->lock[i].is_asked;
    fprintf(to, "witness-trace 2 seats %zu types %zu locks %zu chunks %zu\nprofile all\n", trace->seats, types,
        trace->locks, chunks);
    for (size_t i = 0; i < trace->locks; i++)
        fprintf(to, "init 1 rw - \"%zu.%" PRIu32 "\"%s\n", trace->lock[i].circle, trace->lock[i].serial,
            trace->lock[i].is_asked ? "" : " \"other\"");
}

static void write_release(FILE *to, size_t seat, size_t lock, bool shared)
{
    fprintf(to, "unlock %zu %zu %c\nfree %zu %zu\n", seat, lock, letter_of(shared), seat, lock);
}

static void write_step(const struct errand_trace *trace, FILE *to, size_t number, size_t at)
{
    const struct errand_seat *seat = &trace->seat[number - 1];
    const struct single_step *step = &seat->step[at];
    size_t lock = errand_lock_number(trace, seat, step->serial);
    if (step->gets)
        fprintf(to, "trytake %zu %zu %c\ntry %zu %zu %c e:0\n", number, lock, letter_of(step->shared), number, lock,
            letter_of(step->shared));
    else
        write_release(to, number, lock, errand_has(seat, step->serial, at)->shared);
}

/* Its errand, its request, and all that ends it. */
static unsigned long write_seat(struct errand_trace *trace, FILE *to, size_t number, unsigned long line)
{
    struct errand_seat *seat = &trace->seat[number - 1];
    const struct single_lock *asked = &seat->fact->pair->asked;
    size_t lock = errand_lock_number(trace, seat, asked->serial);
    seat->first_line = line;
    seat->check_line = line + 2 * seat->steps;
    for (size_t i = 0; i < seat->steps; i++)
        write_step(trace, to, number, i);
    fprintf(to, "check %zu %zu %c n e:0\ngiveup %zu %zu\n", number, lock, letter_of(asked->shared), number, lock);
    line = seat->check_line + 2;
    for (size_t i = seat->steps; i > 0; i--) {
        const struct single_step *step = &seat->step[i - 1];
        if (errand_has(seat, step->serial, seat->steps) != step)
            continue;
        write_release(to, number, errand_lock_number(trace, seat, step->serial), step->shared);
        line += 2;
    }
    return line;
}

void errand_trace_write(struct errand_trace *trace, FILE *to)
{
    unsigned long line = trace->locks + 3;
    if (trace->seats == 0)
        return;
    qsort(trace->seat, trace->seats, sizeof *trace->seat, by_telling);
    write_head(trace, to);
    for (size_t number = 1; number <= trace->seats; number++)
        line = write_seat(trace, to, number, line);
}

static int by_serial(const void *left, const void *right)
{
    const struct errand_lock *one = *(struct errand_lock *const *)left, *other = *(struct errand_lock *const *)right;
    return one->serial < other->serial ? -1 : one->serial > other->serial;
}

/* Sets it for all of that serial number. */
static void find_lock(struct errand_lock **sorted, size_t count, const struct single_lock *lock)
{
    size_t from = 0, to = count;
    while (from < to) {
        size_t middle = from + (to - from) / 2;
        if (sorted[middle]->serial < lock->serial)
            from = middle + 1;
        else
            to = middle;
    }
    for (; from < count && sorted[from]->serial == lock->serial; from++)
        if (!sorted[from]->known || lock->number > 0)
            sorted[from]->known = lock;
}

void errand_trace_finds(struct errand_trace *trace, const struct single *single)
{
    struct errand_lock **sorted = take((trace->locks + 1) * sizeof *sorted);
    for (size_t i = 0; i < trace->locks; i++)
        sorted[i] = &trace->lock[i];
    qsort(sorted, trace->locks, sizeof *sorted, by_serial);
    for (size_t i = 0; i < single->pairs; i++) {
        const struct single_pair *pair = &single->pair[i];
        find_lock(sorted, trace->locks, &pair->held);
        find_lock(sorted, trace->locks, &pair->asked);
    }
    free(sorted);
}

void errand_trace_end(struct errand_trace *trace)
{
    free(trace->seat);
    free(trace->lock);
    map_end(&trace->numbers);
    *trace = (struct errand_trace){0};
}
