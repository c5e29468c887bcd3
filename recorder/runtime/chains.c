/* What each thread holds, oldest first, and what it asks for. */
#include "quick.h"

#include "judge.h"
#include "steer.h"

#include <errno.h>
#include <string.h>

/* Room for a chain that is longer than most. */
struct block {
    struct block *next; /* among those that no thread has; NULL of a new one */
    struct held held[HELD_MOST];
};

_Atomic uint32_t lost_total;
struct wit_condensed *pairs;
static struct block *free_blocks;

bool chains_made(void)
{
    pairs = table(sizeof *pairs);
    return pairs != NULL;
}

/* As held_of, by the lock's address. What is held and isn't lost has its record still. */
static inline struct held *held_at(struct thread *thread, const void *address)
{
    for (uint32_t i = thread->count; i-- > 0;)
        if (atomic_load_explicit(&thread->held[i].lock->address, memory_order_relaxed) == (uintptr_t)address)
            return &thread->held[i];
    return NULL;
}

/* The thread has the block until its chain is empty. */
COLD static bool room_made(struct thread *thread)
{
    if (thread->room == HELD_MOST)
        return false;
    ENTERS_OR return false;
    struct block *block = free_blocks ? free_blocks : table(sizeof *block);
    if (!block)
        return false;
    free_blocks = block->next;
    memcpy(block->held, thread->held, thread->count * sizeof *thread->held);
    thread->held = block->held;
    thread->room = HELD_MOST;
    return true;
}

COLD static void give_room_back(struct thread *thread)
{
    struct block *block = (struct block *)((char *)thread->held - offsetof(struct block, held));
    ENTERS_OR return;
    block->next = free_blocks;
    free_blocks = block;
    thread->held = thread->few;
    thread->room = HELD_FEW;
}

static void take_out(struct thread *thread, struct held *held)
{
    uint32_t at = (uint32_t)(held - thread->held);
    thread->count--;
    if (UNLIKELY(at != thread->count)) {
        memmove(held, held + 1, (thread->count - at) * sizeof *held);
        for (uint32_t i = at; i < thread->count; i++) {
            struct held *left = &thread->held[i];
            left->locks = locks_with(i ? left[-1].locks : 0, left->lock, left->mode);
        }
    }
    if (UNLIKELY(thread->count == 0) && UNLIKELY(thread->room == HELD_MOST))
        give_room_back(thread);
}

/* Takes out what the thread holds by its chain alone: another thread released it, or it was made anew. */
COLD static void drop_lost(struct thread *thread)
{
    if (thread->repeated.lingers)
        repeat_ends(thread);
    thread->lost_seen = atomic_load(&lost_total);
    for (uint32_t i = thread->count; i-- > 0;) {
        struct held *held = &thread->held[i];
        if (held->lost == atomic_load(&held->lock->lost))
            continue;
        if (held->written & IS_WRITTEN)
            write_unlock(thread, held);
        take_out(thread, held);
        errand_is_cut(thread);
    }
}

bool chain_opens(uintptr_t stack)
{
    struct thread *thread = &self;
    if (thread->state != OPEN && !thread_opens(thread, stack))
        return false;
    thread->state = stack;
    atomic_signal_fence(memory_order_seq_cst);
    if (UNLIKELY(thread->lost_seen != atomic_load_explicit(&lost_total, memory_order_relaxed)))
        drop_lost(thread);
    return true;
}

/* A lock that is held may be asked for again: a recursive mutex, and a rwlock that is held shared, shared. */
static bool may_recur(const struct held *held, const struct request *request)
{
    return request->mode == SHARED ? held->mode == SHARED : held->mode == EXCLUSIVE && request->lock->recursive;
}

/* It tells something new, or is repeated for so long that it counts as a wait. */
static void write_new(void *argument)
{
    struct request *request = argument;
    request->stack = stack_of(request->caller);
    write_request(request);
}

/* Whether a request that may block, by a thread that holds something, has to be written; and writes it then. */
static void consider(struct request *request)
{
    if (request->again) {
        request->again_refused = !may_recur(request->again, request);
        /* A reader comes after writers that wait, where the lock prefers them: these wait for it. */
        request->patient = request->again_refused || request->mode == SHARED;
        return;
    }
    bool waits = request->repeats && !request->pending;
    bool is_told = chain_is_told(request->thread, request->lock->type);
    request->patient = waits || is_told;
    if (!is_told || waits || WRITES_ALL) {
        request->patient = waits;
        aside(write_new, request);
    }
    if (request->thread->count != 0)
        pairs_noted(request);
    if (waits)
        aside(judge_waits, request);
}

/* The thread is inside, and the lock has its record. */
static inline void begin_inside(struct request *request, struct lock *lock)
{
    request->lock = lock;
    request->again = held_of(&self, lock);
    if (UNLIKELY(request->timed || self.repeated.lingers))
        repeat_counts(request);
    if (!request->tried && (self.count != 0 || WRITES_ALL))
        consider(request);
}

static void find_place(struct request *request)
{
    request->place = place_of(request->caller);
    request->stack = stack_of_held(request->place, request->caller);
}

static void begin(void *argument)
{
    struct request *request = argument;
    if (UNLIKELY(!chain_opens(request->caller.stack)))
        return;
    if (UNLIKELY(takes_long_way()))
        answer(&self);
    struct lock *lock = lock_at(request->address);
    if (LIKELY(lock) || (lock = lock_met(request->address, request->class, request->caller))) {
        find_place(request);
        begin_inside(request, lock);
    } else {
        goes_outside(&self);
    }
}

/* Nothing stands between the thread and its chain. */
static inline bool is_open(const struct thread *thread)
{
    return LIKELY(thread->state == OPEN) && LIKELY(!takes_long_way())
        && LIKELY(thread->lost_seen == atomic_load_explicit(&lost_total, memory_order_relaxed));
}

/* The number of the place where it is known and no stack is wanted there; else 0. */
static inline uint32_t plain_place(uintptr_t pc)
{
    uint32_t place = place_at_pc(pc);
    return LIKELY(place && detour_at(place) == DETOUR_NONE) ? place : 0;
}

/* If there is a fault of the program's own in the lock's memory, it comes here, as it would in the real call. */
static void touch(const void *address, enum class class)
{
    if (class == MUTEX)
        (void)*(const volatile int *)&((const pthread_mutex_t *)address)->__data.__kind;
    else if (class == RWLOCK)
        (void)*(const volatile int *)&((const pthread_rwlock_t *)address)->__data.__shared;
}

/* Where lock and place are known, what begins takes little of the program's stack. */
bool request_begins(struct request *request, const void *address, enum class class, enum mode mode,
    struct caller caller, enum asking asking)
{
    *request = (struct request){.thread = &self,
        .address = address,
        .caller = caller,
        .class = class,
        .mode = (uint8_t)mode,
        .tried = asking == TRIES,
        .timed = asking == ASKS_FOR_A_TIME};
    if (UNLIKELY(is_asleep()))
        return false;
    struct lock *lock = is_open(&self) && (request->place = plain_place(caller.pc)) ? lock_at(address) : NULL;
    if (LIKELY(lock)) {
        self.state = caller.stack;
        atomic_signal_fence(memory_order_seq_cst);
        begin_inside(request, lock);
    } else {
        touch(address, class);
        aside(begin, request);
    }
    if (!request->lock)
        return false;
    /* All of the request is written: the process may end here. */
    judge_tells(caller);
    if (UNLIKELY(steers) && asking != TRIES && steer_asks(request))
        request->patient = true;
    return true;
}

/* A patient request has waited for a second: now it is written, so that the trace shows a circle where there is one. */
static void waits_aside(void *argument)
{
    struct request *request = argument;
    request->stack = stack_of(request->caller);
    request->waited_for_itself = request->again_refused;
    if (request->again)
        write_waits_again(request);
    else if (stream_has_file() || judge_watches_waits())
        write_request(request);
    judge_waits(request);
}

COLD void request_waits(struct request *request)
{
    aside(waits_aside, request);
    judge_tells(request->caller);
}

static inline void add_held(struct request *request)
{
    struct thread *thread = request->thread;
    if (UNLIKELY(thread->count == thread->room) && !room_made(thread)) {
        if (request->pending)
            write_given_up(request);
        thread->unseen++;
        errand_is_cut(thread);
        ENTERS_OR return;
        count_missed(MISSED_HELD);
        return;
    }
    struct held *held = &thread->held[thread->count];
    held_fill(held, request->lock, request->place, locks_with(locks_held(thread), request->lock, request->mode),
        request->mode);
    held->lost = atomic_load_explicit(&request->lock->lost, memory_order_relaxed);
    held->tried = request->tried;
    held->stack = (uint16_t)request->stack;
    if (request->pending)
        write_acquired(request, held);
    thread->count++;
}

static __attribute__((noinline)) void ends(void *argument)
{
    struct request *request = argument;
    struct thread *thread = request->thread;
    bool got = request->got;
    if (UNLIKELY(request->pending) && thread->asked != request->number) {
        /* It was taken for a call that was left, and given up. What it gets after all is held as after a try. */
        request->pending = false;
        request->tried = true;
    }
    if (UNLIKELY(request->again != NULL) && got && request->again_refused) {
        /* The lock was given up by another thread while this one waited. */
        if (request->waited_for_itself)
            write_goes_on(request);
        drop_lost(thread);
        request->again = held_of(thread, request->lock);
        request->tried = true;
    }
    if (LIKELY(got && !request->again)) {
        add_held(request);
    } else if (!got) {
        if (request->pending && !request->repeats)
            write_given_up(request);
        if ((request->timed || request->repeats) && !request->again && thread->count != 0)
            repeat_noted(request);
    } else if (may_recur(request->again, request)) {
        request->again->count++;
        request->again->place = request->place;
        request->again->stack = (uint16_t)request->stack;
        if (request->pending)
            write_given_up(request);
    }
    goes_outside(thread);
}

/* The call has returned, with the lock or without. */
void request_ends(struct request *request, bool got)
{
    request->got = got;
    if (!request->pending && !request->again_refused && self.count != self.room)
        ends(request);
    else
        aside(ends, request);
}

/* What was acquired after it was acquired under it. */
static void mark_under(struct thread *thread, const struct held *held)
{
    for (struct held *later = thread->held + thread->count; --later > held;) {
        later->under = held->lock->serial;
        later->has_under = 1;
    }
}

/* What it released while it held others is of its errand. The oldest one tells so. */
static void keep_release(struct thread *thread, struct held *held)
{
    uint32_t left = thread->count - 1, later = left - (uint32_t)(held - thread->held);
    if (left == 0)
        return;
    if (later >> LATER_BITS)
        errand_is_cut(thread);
    else
        errand_keeps(thread, release_of(held, left, later));
    if (held == thread->held)
        held[1].has_releases = 1;
}

static void released(struct thread *thread, struct held *held)
{
    if (--held->count > 0)
        return;
    if (held->written & IS_WRITTEN)
        write_unlock(thread, held);
    mark_under(thread, held);
    keep_release(thread, held);
    take_out(thread, held);
}

struct release {
    const void *address;
    struct caller caller;
};

static __attribute__((noinline)) void release(void *argument)
{
    const struct release *it = argument;
    struct thread *thread = &self;
    if (UNLIKELY(!chain_opens(it->caller.stack)))
        return;
    struct held *held = held_at(thread, it->address);
    if (UNLIKELY(thread->repeated.lingers))
        repeat_ends(thread);
    if (LIKELY(held != NULL)) {
        released(thread, held);
    } else if (thread->unseen) {
        thread->unseen--;
    } else {
        struct lock *lock = lock_at(it->address);
        bool was_told = release_was_told(lock);
        if (!was_told)
            write_released_by_another(thread, lock, place_of(it->caller));
        if (!was_told && lock && lock->loses)
            lock_given_up(lock);
    }
    goes_outside(thread);
}

/* Whether it releases what it holds, and the stream has nothing of that: so that it takes little of the program's stack. */
static bool releases_simply(const void *address)
{
    const struct held *held = is_open(&self) && self.room == HELD_FEW ? held_at(&self, address) : NULL;
    return held && !held->written;
}

/* The thread is about to release the lock, whichever call it uses. */
void release_begins(const void *address, struct caller caller)
{
    struct release it = {address, caller};
    if (is_asleep())
        return;
    if (releases_simply(address))
        release(&it);
    else
        aside(release, &it);
}

static void open_wait(void *argument)
{
    struct request *request = argument;
    struct thread *thread = &self;
    if (UNLIKELY(!chain_opens(request->caller.stack)))
        return;
    struct held *held = held_at(thread, request->address);
    if (!held) {
        goes_outside(thread);
        return;
    }
    if (thread->repeated.lingers)
        repeat_ends(thread);
    request->lock = held->lock;
    find_place(request);
    released(thread, held);
    /* That it asks for the mutex again is written now, since the wait may never end. */
    request->again = held_of(thread, request->lock);
    if (request->asks_again && !request->again && thread->count != 0) {
        consider(request);
        if (request->pending)
            aside(write_given_up, request);
        request->patient = false;
        waiter_begins(request);
    }
}

/*
 * The thread is about to wait for a condition, and gives up the mutex. ASKS_AGAIN where the call isn't one that is
 * refused: then it asks for the mutex again. False where it isn't known to hold it.
 */
bool wait_begins(struct request *request, const void *address, bool asks_again, struct caller caller)
{
    *request = (struct request){.thread = &self,
        .address = address,
        .caller = caller,
        .class = MUTEX,
        .mode = EXCLUSIVE,
        .ends_wait = true,
        .asks_again = asks_again};
    if (is_asleep())
        return false;
    if (releases_simply(address) && plain_place(caller.pc))
        open_wait(request);
    else
        aside(open_wait, request);
    if (request->lock)
        judge_tells(caller);
    return request->lock != NULL;
}

/*
 * The wait is over and the thread has the mutex again. Unless another thread has written its request (waiters.c), that is
 * written only now. Where the call was refused, the mutex was never given up: it wasn't asked for, and is put back as after
 * a try.
 */
void wait_ends(struct request *request, int answer)
{
    struct thread *thread = request->thread;
    if (UNLIKELY(steers))
        steer_wait_ends();
    waiter_ends(request);
    request->again = held_of(thread, request->lock);
    request->tried = !(request->pending || answer == 0 || answer == ETIMEDOUT || answer == EOWNERDEAD);
    if (!request->pending && !request->tried && (thread->count != 0 || WRITES_ALL)) {
        consider(request);
        judge_tells(request->caller);
    }
    request_ends(request, answer != ENOTRECOVERABLE);
}

void chains_forked(void)
{
    struct thread *thread = &self;
    thread->repeated = (struct repeated){0};
    thread->seat = thread->last_seat = thread->written = thread->asked = 0;
    forget_requests(thread);
    madvise(pairs, sizeof *pairs, MADV_DONTNEED);
    for (struct held *held = thread->held; held < thread->held + thread->count; held++) {
        held->written = held->has_under = 0;
        held->before_fork = 1;
    }
    if (thread->count != 0)
        errand_is_cut(thread);
}
