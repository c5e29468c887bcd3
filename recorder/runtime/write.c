/*
 * The lines of a stream. recorder/README.md ("The recorder's file") has their words.
 *
 * Why the lines are a legal history of what the program did. Each line is written in one critical section of the
 * recorder's mutex: `check` before the real call (after it, where a wait for a condition gets its mutex back); `lock`
 * or `giveup` after it returned; `try` after a success; `unlock` before the real release. What a thread holds is
 * written late, but while it is held. So a thread's lines come in its program's order, nothing of it stands between
 * its `check` and the line that ends it, and of two exclusive holdings of a lock the `unlock` of the first comes
 * before the `lock` or `try` of the second. A seat is lent to one thread at a time, and it is empty when it goes to
 * the next. What a trace would end at isn't written: asking anew for a mutex that isn't recursive, unlocking what the
 * thread doesn't hold, a lock in a mode other than the one it is held in.
 *
 * The duty: a request by a thread that holds locks is written, after all that the thread holds, unless each of its pairs of
 * types (held, asked) was written before. A proved library keeps it (condensed.h). All else may be left out: what a thread
 * asks for that holds nothing, what it acquires again, and what it holds when it asks for nothing.
 *
 * Why that is enough. By the duty the stream tells of each pair that the program made. Where it is clean, no order of the
 * threads' steps makes them wait for one another in a circle (law_covered_never_deadlock of crates/wit_recordings). It tells of
 * no other pair either:
 *   - A held lock is written late, as a request like any other. All that stands before it in the chain was held when it was
 *     asked for: its pairs were told of then. What was got by a try is written as a try, which tells of none.
 *   - A wait for a condition releases its mutex and asks for it again. That may never come to its end, so the request is
 *     written when the wait begins, and as given up. While it waits, another thread may write its request as pending
 *     (waiters.c). The wait can't end without the mutex, and nothing else of the thread stands in between.
 *   - A trace has a limit of locks. A chain with a lock that has no number there is written without it. Such a lock is counted:
 *     the recording isn't clean.
 */
#include "quick.h"

#include "judge.h"
#include "steer.h"

#include <string.h>

/* It is told without a name where it has its program's. */
void write_thread(const struct thread *thread)
{
    char name[THREAD_NAME_ROOM];
    thread_name(thread, name);
    if (strncmp(name, program_name, 15) == 0)
        name[0] = '\0';
    for (char *at = name; *at; at++)
        if (*at <= ' ' || *at > '~' || *at == '&' || *at == '\\')
            *at = '_';
    uint32_t made = place_number(thread->birth.place);
    write_line(WORD_THREAD " %u %s %u %lu", thread->seat, name, made, (uint64_t)thread_number(thread));
}

/* A line that is no call of the trace: its word, the seat, the lock and the place. */
static void write_note(const char *word, const struct thread *thread, uint32_t lock, uint32_t place)
{
    uint32_t site = place_number(place);
    write_line("%s %u %u %u", word, thread->seat, lock, site);
}

static char letter_of(uint8_t mode)
{
    return mode == SHARED ? 's' : 'x';
}

static bool has_readers(const struct lock *lock)
{
    return lock->type->class == RWLOCK || lock->type->class == TOLD_RWLOCK;
}

/*
 * The mode in which a request is written. Memory may be another lock's by now, and no call has told so: what was a mutex there
 * has no readers.
 */
static uint8_t mode_of(const struct lock *lock, uint8_t mode)
{
    return has_readers(lock) ? mode : EXCLUSIVE;
}

/* The acquisition is written, in that mode. */
static void note_written(struct held *held, uint8_t mode)
{
    held->written |= mode == held->mode ? IS_WRITTEN : IS_WRITTEN | AS_EXCLUSIVE;
}

/* A request or a try: what it says of the lock, HOW, the place, and the stack where there is one. */
static void write_asking(const char *word, const struct thread *thread, uint32_t lock, uint8_t mode, const char *how,
    uint32_t place, uint32_t stack)
{
    uint32_t site = place_number(place);
    if (stack)
        stack_stands(stack);
    line_put("%s %u %u %c", word, thread->seat, lock, letter_of(mode));
    if (how)
        line_put(" %s", how);
    line_put(" %u", site);
    if (stack)
        line_put(" %u", stack);
    stream_append(true);
}

static void write_check(const struct thread *thread, uint32_t lock, uint8_t mode, const char *how, uint32_t place,
    uint32_t stack)
{
    write_asking(WORD_CHECK, thread, lock, mode, how, place, stack);
    judge_asked(thread, lock, mode, place);
}

static void write_lock(const struct thread *thread, uint32_t lock)
{
    write_entry(WORD_LOCK " %u %u", thread->seat, lock);
    judge_got(thread, lock);
}

static void write_held(struct thread *thread, struct held *held)
{
    uint8_t mode = mode_of(held->lock, held->mode);
    note_written(held, mode);
    number_stands(thread, held->number);
    if (held->tried) {
        write_asking(WORD_TRY, thread, held->number, mode, NULL, held->place, held->stack);
        judge_tried(thread, held->number, mode, held->place);
    } else {
        write_check(thread, held->number, mode, CHECK_ASKS, held->place, held->stack);
        write_lock(thread, held->number);
    }
}

/* What the thread holds, oldest first, but for locks that no trace has room for. It has a seat. */
struct chain {
    size_t count;
    struct wit_link links[HELD_MOST];
    uint16_t at[HELD_MOST]; /* in the thread's chain */
    struct wit_line lines[HELD_MOST + 1];
};
static struct chain chain; /* under the mutex */

static void chain_read(struct thread *thread)
{
    chain.count = 0;
    for (uint32_t i = 0; i < thread->count; i++) {
        struct held *held = &thread->held[i];
        uint32_t number = held->written & IS_WRITTEN ? held->number : lock_number(thread, held->lock);
        if (number == 0)
            continue;
        held->number = number;
        chain.at[chain.count] = (uint16_t)i;
        chain.links[chain.count++] = (struct wit_link){number, (uint16_t)*mark(&held->lock->type->marks), held->tried,
            held->written & IS_WRITTEN};
    }
}

static void write_asked(struct request *request, uint32_t number, bool is_due)
{
    struct thread *thread = request->thread;
    uint8_t mode = mode_of(request->lock, request->mode);
    request->as_exclusive = mode != request->mode;
    write_check(thread, number, mode, is_due ? CHECK_ASKS : CHECK_KNOWN, request->place, request->stack);
    request->number = thread->asked = number;
    request->pending = true;
    number_stands(thread, number);
}

/* `time N`: what follows was asked for so many milliseconds after the process began. Once for all of one millisecond. */
static void write_time(void)
{
    static uint64_t told;
    static uint32_t told_life;
    uint64_t time = milliseconds() - stream_made_at;
    if (told_life == life && told == time)
        return;
    told_life = life;
    told = time;
    write_line(WORD_TIME " %lu", time);
}

/* Writes the lines that the request needs, where they have room. Of one that can't be told in a trace there is a note. */
static void write_due(struct request *request)
{
    struct thread *thread = request->thread;
    SEATED_OR(thread) return;
    chain_read(thread);
    uint32_t number = lock_number(thread, request->lock);
    if (number == 0)
        return;
    write_time();
    uint16_t type = (uint16_t)*mark(&request->lock->type->marks);
    bool is_due = request->patient || !WRITES_ALL || !chain_is_told(thread, request->lock->type);
    bool waits = request->patient || WRITES_ALL;
    size_t lines = wit_condensed_lines(pairs, chain.links, chain.count, number, type, waits, chain.lines, HELD_MOST + 1);
    for (size_t i = 0; i < lines; i++)
        if (chain.lines[i].kind != WIT_LINE_ASKS)
            write_held(thread, &thread->held[chain.at[chain.lines[i].link]]);
        else if (request->again_refused)
            write_note(WORD_AGAIN, thread, number, request->place);
        else
            write_asked(request, number, is_due);
    /* From here on other threads may leave out what these lines tell. */
    wit_condensed_ask(pairs, chain.links, chain.count, number, type, waits, chain.lines, HELD_MOST + 1);
}

/* The stream has it where it tells something new, or waits for long. */
static void put_request(struct request *request)
{
    struct thread *thread = request->thread;
    bool nested = thread->count != 0;
    thread->asks_for_a_time = request->timed;
    if (request->pending)
        return;
    if (WRITES_ALL || (nested && (request->patient || !chain_is_told(thread, request->lock->type))))
        write_due(request);
    if (!request->pending)
        request->patient = nested;
    else if (request->patient)
        /* It may have got its name since it was given the seat. */
        write_thread(thread);
}

/* Before the real call. */
COLD void write_request(struct request *request)
{
    ENTERS_OR return;
    put_request(request);
    waiters_written();
    /* It waits for a second by a call with a time limit, so that it can be looked at once more. */
    if (judge_sees_circle(request))
        request->patient = true;
}

COLD void write_request_of(struct request *request)
{
    request->patient = true;
    put_request(request);
    request->patient = false;
}

/* After the real call, which got the lock. What is held isn't in the chain yet. */
COLD void write_acquired(struct request *request, struct held *held)
{
    ENTERS_OR return;
    write_lock(request->thread, request->number);
    request->thread->asked = 0;
    note_written(held, request->as_exclusive ? EXCLUSIVE : held->mode);
    held->number = request->number;
}

/* What the thread asks for isn't asked for any longer. */
static void give_up(struct thread *thread)
{
    uint32_t number = thread->asked;
    thread->repeated.lingers = false;
    if (number == 0)
        return;
    thread->asked = 0;
    write_entry(WORD_GIVEUP " %u %u", thread->seat, number);
    judge_gave_up(thread, number);
    number_stands_no_more(thread, number);
}

/* After the real call, which didn't get the lock. */
COLD void write_given_up(void *argument)
{
    struct request *request = argument;
    ENTERS_OR return;
    give_up(request->thread);
    request->pending = false;
}

/* The thread has left a call before its end: what that call asked for is given up. */
COLD void write_left(void *argument)
{
    struct thread *thread = argument;
    ENTERS_OR return;
    count_failure(FAILED_JUMPED);
    waiter_forgotten(thread);
    if (UNLIKELY(steers))
        steer_left(thread);
    give_up(thread);
}

/* Before the real release of all acquisitions. */
COLD void write_unlock(struct thread *thread, struct held *held)
{
    uint8_t mode = held->written & AS_EXCLUSIVE ? EXCLUSIVE : held->mode;
    ENTERS_OR return;
    write_entry(WORD_UNLOCK " %u %u %c", thread->seat, held->number, letter_of(mode));
    judge_released(thread, held->number, mode);
    number_stands_no_more(thread, held->number);
}

/*
 * The thread waits for a lock that it holds, and what it holds is written before. As a reader it has waited for a second,
 * and asks for it; when it gets it, the stream has it as given up, since what is acquired again isn't in it.
 */
COLD void write_waits_again(struct request *request)
{
    ENTERS_OR return;
    if (request->again_refused)
        count_missed(MISSED_AGAIN);
    write_due(request);
}

/* It waits for that lock no more, which another thread has released. */
COLD void write_goes_on(const struct request *request)
{
    const struct held *held = request->again;
    ENTERS_OR return;
    if ((held->written & IS_WRITTEN) && stream_has_room())
        write_line(WORD_WENT " %u %u", request->thread->seat, held->number);
}

/* The thread releases what it doesn't hold. There is one line for each place; all are counted. */
COLD void write_released_by_another(struct thread *thread, struct lock *lock, uint32_t place)
{
    ENTERS_OR return;
    count_missed(MISSED_RELEASES);
    uint32_t *known = place ? mark(&place_at(place)->releases) : NULL;
    if (!lock || !known || *known)
        return;
    SEATED_OR(thread) return;
    uint32_t number = lock_number(thread, lock);
    if (number == 0)
        return;
    *known = 1;
    write_note(WORD_FOREIGN, thread, number, place);
}

/* Whether these marks are new in the stream. */
static bool is_first(struct marks *marks)
{
    uint32_t *written = marks ? mark(marks) : NULL;
    return written && !*written && (*written = 1);
}

static void write_object(uint32_t object)
{
    if (!object || !is_first(object_marks(object)))
        return;
    write_line(WORD_OBJECT " %u %s", object, object_path(object));
    if (object_called(object))
        write_line(WORD_CALLED " %u %s", object, object_called(object));
}

/* An offset is that of the call's last byte, not of the return address. */
void write_place(uint32_t number)
{
    const struct place *place = place_at(number);
    if (place->library) {
        place_number(place->library);
        place_number(place->rest);
        write_line(WORD_EITHER " %u %u %u", number, place->library, place->rest);
        return;
    }
    if (place->file) {
        write_line(WORD_SITE " %u %s %lu %s", number, place->file, place->offset, place->name);
        return;
    }
    write_object(place->object);
    if (is_first(object_end_marks(place->object)))
        write_line(WORD_BLIND " %u", (uint32_t)place->object);
    write_line(WORD_PLACE " %u %u %lx %s %lx", number, (uint32_t)place->object,
        (place->object ? place->offset : place->pc) - 1, place->name, *place->name ? place->within - 1 : 0);
}

/* The variable that a lock in an object stands in. */
static void put_variable(uint32_t object, uintptr_t address)
{
    uintptr_t from = address;
    const char *name = "";
    object_symbol(object, address, false, &from, NULL, &name);
    line_put(" %u %lx %s %lx %s", object, object_offset(object, address), name, address - from,
        object_symbol_file(object, address));
}

/* A type that has no number yet gets it with that. */
void write_crowded(struct type *type)
{
    if (*mark(&type->marks) != 0 && type_fits(type) && stream_has_room())
        write_line(WORD_CROWDED " %u", *mark(&type->marks));
}

static uint32_t places_in(const uint32_t of_type[DEPTH_MOST])
{
    uint32_t count = 0;
    while (count < DEPTH_MOST && of_type[count])
        count++;
    return count;
}

void write_type(struct type *type)
{
    uint32_t object = type->object;
    write_object(object);
    for (uint32_t i = 0; i < DEPTH_MOST; i++) {
        place_number(type->places[i]);
        place_number(type->uses[i]);
    }
    line_put(WORD_TYPE " %u", *mark(&type->marks));
    if (type->part)
        line_put(" " WORD_PART " %lx %u", type->part - 1, places_in(type->uses));
    else
        line_put(" %s", type->label ? WORD_NAMED : object ? WORD_VARIABLE : type->met ? WORD_MET : WORD_MADE);
    for (uint32_t i = 0; i < places_in(type->uses) && type->part; i++)
        line_put(" %u", type->uses[i]);
    if (type->label)
        line_put(" %s", type->label);
    if (object)
        put_variable(object, type->address);
    for (uint32_t i = 0; i < places_in(type->places); i++)
        line_put(" %u", type->places[i]);
    stream_append(false);
    if (type->crowded)
        write_crowded(type);
}

void write_init(struct thread *thread, struct lock *lock)
{
    struct type *type = lock->type;
    const char *const flags[] = {"", INIT_RECURSIVE, INIT_SHARED, INIT_RECURSIVE INIT_SHARED};
    line_put(WORD_INIT " %u %s %s %u %u", thread->seat, has_readers(lock) ? "rw" : "mtx",
        flags[lock->recursive + 2 * lock->shared], *mark(&type->marks), lock->name->number);
    if (type->object)
        put_variable(type->object, atomic_load(&lock->address));
    stream_append(true);
    judge_made(thread, lock);
}
