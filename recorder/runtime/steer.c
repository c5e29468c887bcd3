/*
 * Where a steered run pauses (docs/recording.md, "A report that is made to hang").
 *
 * A thread that holds a lock and asks for another at a place of the plan stands there before the real call. Where those that
 * stand wait for one another in a circle, by what they want and what they hold, all of them are let go: they really hang by
 * then. A pause ends early where another thread waits for a mutex of the paused one, which then is in its way.
 *
 * Threads stand in one table under the recorder's mutex, which is never held while they wait. What a standing thread holds
 * is read from its chain: it is in its call, and its chain stays as it is.
 */
#include "steer.h"

#include "plan.h"
#include "quick.h"

#include <errno.h>
#include <fcntl.h>
#include <linux/futex.h>
#include <sched.h>
#include <string.h>
#include <sys/syscall.h>
#include <unwind.h>

enum {
    STANDING = 64,
    PAUSES = 64,     /* in vain, at one place and in one run */
    SPENT_MS = 1500, /* of all that were made there */
    HALVED = 4,      /* after so many in vain the next is half as long */
    LOOK_MS = 5,
    MOMENT_US = 1500, /* a thread that was woken, but hasn't run yet, doesn't sleep */
    NOISE_MS = 1500,  /* of all pauses at random of a thread */
};

enum where { AT_ASK, AT_HOLD, AT_WAIT };

struct standing {
    const struct thread *thread; /* NULL where the record is free */
    const struct lock *wanted;
    uint8_t mode;
    enum where where;
    uint32_t order;
    uint32_t number;     /* of its pause, among all that have begun; 0 before it has */
    _Atomic uint32_t go; /* the word that the thread sleeps on */
};
#define FOR_EACH_STANDING(one)                                                                                         \
    for (struct standing *one = standing; one < standing + STANDING; one++)                                            \
        if (one->thread)

/* What was spent at a place. */
struct budget {
    uint32_t vain, spent_ms;
};

bool steers;
static struct plan *plan;
static struct standing standing[STANDING];
static struct budget before_ask[PLAN_ORDERS], before_hold[PLAN_ORDERS];
static uint32_t made_before; /* how many threads had been made when the process began */
/* Where this thread stands while it waits for a condition. */
static __thread struct standing *waits_at __attribute__((tls_model("initial-exec")));
static __thread uint32_t noise_spent __attribute__((tls_model("initial-exec")));
static __thread uint32_t noise_seed __attribute__((tls_model("initial-exec")));

bool steer_begins(void)
{
    const char *path = secure_getenv("RECORDER_PLAN");
    int file = path && *path ? open(path, O_RDWR | O_CLOEXEC) : -1;
    bool is_whole = file >= 0 && lseek(file, 0, SEEK_END) == (off_t)sizeof *plan;
    plan = is_whole ? mapped(sizeof *plan, PROT_READ | PROT_WRITE, MAP_SHARED, file, 0) : NULL;
    if (file >= 0)
        close(file);
    steers = plan && plan->mark == PLAN_MARK && plan->orders <= PLAN_ORDERS;
    steer_forked();
    return steers && plan->noise_ms > 0;
}

/* Its places. */

/* A place by name has no object. */
static bool is_at(const struct plan_code *code, const char *file, uint32_t object, uint64_t offset)
{
    const char *name = file ? file : object ? basename(object_path(object)) : "";
    return *name && !file == !code->is_named && offset == code->offset
        && strncmp(name, code->name, sizeof code->name) == 0;
}

static bool is_code(const struct place *place, const struct plan_code *code)
{
    return is_at(code, place->file, place->object, place->offset - !place->file);
}

/* Of several functions of the library the first one counts, and what called the last. */
static bool is_frame(const struct place *place, const struct plan_frame *frame)
{
    const struct place *rest = place;
    while (rest->library)
        rest = place_at(rest->rest);
    if (rest == place)
        return !*frame->rest.name && is_code(place, &frame->code);
    return *frame->rest.name && is_code(place_at(place->library), &frame->code) && is_code(rest, &frame->rest);
}

void steer_place(struct place *place)
{
    for (uint32_t i = 0; i < plan->orders && place->detour < DETOUR_LIBRARY; i++)
        if (is_frame(place, plan->order[i].ask.frame) || is_frame(place, plan->order[i].hold.frame))
            place->detour = DETOUR_PLANNED;
}

static bool is_chain(const struct plan_chain *chain, const uint32_t *found, uint32_t count)
{
    bool is = chain->frames > 0 && chain->frames <= count;
    for (uint32_t i = 0; is && i < chain->frames; i++)
        is = found[i] && is_frame(place_at(found[i]), &chain->frame[i]);
    return is;
}

/* Whether the plan's lock is this one; it may be any. */
static bool is_lock(const struct lock *lock, const struct plan_code *wanted)
{
    uint32_t object = lock->type->object;
    return !*wanted->name || is_at(wanted, NULL, object, object_offset(object, atomic_load(&lock->address)));
}

static bool holds(const struct thread *thread, const struct plan_code *wanted)
{
    for (uint32_t i = 0; i < thread->count; i++)
        if (is_lock(thread->held[i].lock, wanted))
            return true;
    return false;
}

static void count_met(struct plan_met *met)
{
    int32_t thread = gettid(), known = 0;
    atomic_fetch_add(&met->times, 1);
    if (!atomic_compare_exchange_strong(&met->thread, &known, thread) && known != thread)
        atomic_store(&met->thread, PLAN_SEVERAL_THREADS);
}

/*
 * The order of the plan whose second lock the request is for, and in *hold that whose first lock it is for: PLAN_ORDERS
 * where it is in none.
 */
static uint32_t arrives(const struct request *request, uint32_t *hold)
{
    uint32_t found[PLAN_FRAMES], ask = *hold = PLAN_ORDERS;
    if (!request->place || detour_at(request->place) != DETOUR_PLANNED || request->again)
        return ask;
    uint32_t count = callers(request->caller, PLAN_FRAMES, found);
    for (uint32_t i = plan->orders; i-- > 0;) {
        struct plan_order *order = &plan->order[i];
        if (is_lock(request->lock, &order->ask_lock) && holds(request->thread, &order->hold_lock)
            && is_chain(&order->ask, found, count)) {
            count_met(&order->asked);
            ask = i;
        }
        if (order->holds_back && is_lock(request->lock, &order->hold_lock) && is_chain(&order->hold, found, count))
            *hold = i;
    }
    return ask;
}

/* Who may pause. */

static _Unwind_Reason_Code look_at(struct _Unwind_Context *context, void *is_signal)
{
    int is_before = 0;
    _Unwind_GetIPInfo(context, &is_before);
    *(bool *)is_signal |= is_before != 0;
    return is_before ? _URC_END_OF_STACK : _URC_NO_REASON;
}

static void look_back(void *is_signal)
{
    _Unwind_Backtrace(look_at, is_signal);
}

/* In a child of fork that has made no thread there is nobody to wait for, as anywhere. */
static bool may_pause(const struct thread *thread)
{
    int policy = sched_getscheduler(0);
    bool may = atomic_load(&threads_made_and_joined) != made_before && policy != SCHED_FIFO && policy != SCHED_RR;
    bool is_in_handler = false;
    for (uint32_t i = 0; may && i < thread->count; i++) {
        enum class class = thread->held[i].lock->type->class;
        may = class != SPIN && class != SHARED_SPIN;
    }
    if (may && atomic_load_explicit(&has_handlers, memory_order_relaxed))
        aside(look_back, &is_in_handler);
    return may && !is_in_handler;
}

/* The table. All of these under the mutex. */

static void futex(_Atomic uint32_t *word, int what, uint32_t value, const struct timespec *time)
{
    syscall(SYS_futex, word, what, value, time, NULL, 0);
}

static void let_go(struct standing *one)
{
    atomic_store(&one->go, 1);
    futex(&one->go, FUTEX_WAKE_PRIVATE, 1, NULL);
}

/* Whether the one waits for the other as long as that one keeps what it holds. */
static bool is_waited_for(const struct standing *one, const struct thread *other)
{
    for (uint32_t i = 0; i < other->count; i++) {
        const struct held *held = &other->held[i];
        if (held->lock == one->wanted && !(held->mode == SHARED && one->mode == SHARED)
            && held->lost == atomic_load(&held->lock->lost))
            return true;
    }
    return false;
}

/* Whether from the one a way leads to the last one, by who waits for whom. All on the way are let go. */
static bool comes_round(struct standing *one, const struct standing *last, uint64_t *seen)
{
    FOR_EACH_STANDING(next)
    {
        uint64_t bit = (uint64_t)1 << (next - standing);
        if (next->where == AT_HOLD || (*seen & bit) || !is_waited_for(one, next->thread))
            continue;
        *seen |= bit;
        if (next == last || comes_round(next, last, seen)) {
            let_go(next);
            return true;
        }
    }
    return false;
}

/*
 * Whether one of the two needn't be held back any longer, since the other is there: that one stands at another order and
 * wants its lock, or is held back there before another lock.
 */
static bool is_met(const struct standing *one, const struct standing *other)
{
    bool back = one->where == AT_HOLD, other_back = other->where == AT_HOLD;
    return one->order != other->order && (back || other_back) && (one->wanted == other->wanted) != (back && other_back);
}

/* The thread's record; NULL where there is nothing to stand for, or no room. */
static struct standing *stands(const struct request *request, enum where where, uint32_t order)
{
    struct standing *one = standing;
    bool goes_on = false;
    while (one->thread && ++one < standing + STANDING)
        ;
    if (one == standing + STANDING)
        return NULL;
    *one = (struct standing){request->thread, request->lock, request->mode, where, order, 0, 0};
    if (where == AT_ASK && comes_round(one, one, &(uint64_t){0})) {
        atomic_fetch_add(&plan->met, 1);
        goes_on = true;
    }
    FOR_EACH_STANDING(other)
    if (is_met(one, other)) {
        goes_on |= where == AT_HOLD;
        if (other->where == AT_HOLD)
            let_go(other);
    }
    if (!goes_on)
        return one;
    one->thread = NULL;
    return NULL;
}

/* Pauses. */

static uint32_t pause_of(const struct budget *budget, uint32_t first)
{
    if (first == 0 || budget->vain >= PAUSES || budget->spent_ms >= SPENT_MS)
        return 0;
    uint32_t length = first >> budget->vain / HALVED, left = SPENT_MS - budget->spent_ms;
    length = length ? length : 1;
    return length < left ? length : left;
}

/* Whether another thread waits for a mutex that the thread holds. */
static bool is_in_the_way(const struct thread *thread)
{
    for (uint32_t i = 0; i < thread->count; i++) {
        const struct lock *lock = thread->held[i].lock;
        const pthread_mutex_t *mutex = (const void *)atomic_load(&lock->address);
        if (lock->type->class == MUTEX && mutex && *(const volatile int *)&mutex->__data.__lock == 2)
            return true;
    }
    return false;
}

static void sleep_on(_Atomic uint32_t *word, uint64_t microseconds)
{
    struct timespec time = {(time_t)(microseconds / 1000000), (long)(microseconds % 1000000 * 1000)};
    int before = errno;
    futex(word, FUTEX_WAIT_PRIVATE, 0, &time);
    errno = before;
}

/* Of all pauses that go on, it has gone on for the longest. */
static bool is_oldest(const struct standing *one)
{
    ENTERS_OR return false;
    FOR_EACH_STANDING(other)
    if (other->number != 0 && other->number < one->number)
        return false;
    return true;
}

/*
 * Nothing has begun since all threads were seen to sleep. One that is woken by then gets a moment to run. Then one pause
 * ends, the oldest: what it lets go on may come to the others.
 */
static bool all_sleep(struct standing *one)
{
    if (atomic_load(&plan->all_sleep) != atomic_load(&plan->begun) || !is_oldest(one))
        return false;
    sleep_on(&one->go, MOMENT_US);
    return !atomic_load(&one->go) && atomic_load(&plan->all_sleep) == atomic_load(&plan->begun);
}

/* Outside the mutex. */
static void pauses(struct standing *one, struct budget *budget, uint32_t length)
{
    uint64_t begun = milliseconds(), now = begun, end = begun + length;
    bool is_cut = false;
    one->number = atomic_fetch_add(&plan->begun, 1) + 1;
    while (!atomic_load(&one->go) && !is_cut && now < end) {
        sleep_on(&one->go, 1000 * (end - now < LOOK_MS ? end - now : LOOK_MS));
        is_cut = !atomic_load(&one->go) && (is_in_the_way(one->thread) || all_sleep(one));
        now = milliseconds();
    }
    ENTERS_OR return;
    budget->spent_ms += (uint32_t)(now - begun);
    budget->vain += !is_cut && !atomic_load(&one->go);
    one->thread = NULL;
}

/* Stands at that order, if it is one, and pauses as long as the budget has it. */
static void stand(const struct request *request, enum where where, uint32_t order)
{
    struct budget *budget = where == AT_HOLD ? &before_hold[order] : &before_ask[order];
    if (order == PLAN_ORDERS || !may_pause(request->thread) || !recorder_enters())
        return;
    struct standing *one = stands(request, where, order);
    uint32_t length = one ? pause_of(budget, where == AT_HOLD ? plan->back_ms : plan->pause_ms) : 0;
    if (one && length == 0)
        one->thread = NULL;
    recorder_leaves();
    if (length)
        pauses(one, budget, length);
}

/* Every other request with something held, for a while of any length up to the plan's. */
static void make_noise(const struct thread *thread)
{
    static _Atomic uint32_t nothing;
    noise_seed = noise_seed ? noise_seed : (uint32_t)gettid() * 2654435761u ^ (uint32_t)milliseconds();
    uint32_t length = (uint32_t)rand_r(&noise_seed) % (1000 * plan->noise_ms + 1);
    if (rand_r(&noise_seed) % 2 || noise_spent >= 1000 * NOISE_MS || !may_pause(thread))
        return;
    noise_spent += length;
    sleep_on(&nothing, length);
}

bool steer_asks(const struct request *request)
{
    struct thread *thread = request->thread;
    uint32_t hold, ask = arrives(request, &hold);
    if (request->timed || request->repeats)
        return false;
    stand(request, AT_HOLD, hold);
    stand(request, AT_ASK, ask);
    if (plan->noise_ms && thread->count != 0 && !request->again)
        make_noise(thread);
    return thread->count != 0;
}

/* Waits that last. */

/* `owner SEAT LOCK THREAD`: whom the lock itself names as its holder, 0 for none, while the seat's thread waits for it. */
static void write_owner(const struct request *request)
{
    if (request->pending && stream_has_room())
        write_line(WORD_OWNER " %u %u %u", request->thread->seat, request->number, (uint32_t)lock_holder(request->lock));
}

void steer_waits(const struct request *request)
{
    ENTERS_OR return;
    write_owner(request);
    waiters_each(write_owner);
}

void steer_wait_begins(const struct request *request)
{
    uint32_t hold, ask = arrives(request, &hold);
    if (ask == PLAN_ORDERS)
        return;
    ENTERS_OR return;
    waits_at = stands(request, AT_WAIT, ask);
}

bool steer_wait_pauses(void)
{
    return waits_at && pause_of(&before_ask[waits_at->order], plan->pause_ms) > 0 && may_pause(&self);
}

void steer_pauses_after_wait(const struct request *request)
{
    uint32_t order = waits_at->order;
    steer_wait_ends();
    stand(request, AT_ASK, order);
}

void steer_wait_ends(void)
{
    if (!waits_at)
        return;
    ENTERS_OR return;
    waits_at->thread = NULL;
    waits_at = NULL;
}

void steer_left(const struct thread *thread)
{
    FOR_EACH_STANDING(one)
    if (!thread || one->thread == thread)
        one->thread = NULL;
    waits_at = NULL;
}

void steer_forked(void)
{
    steer_left(NULL);
    made_before = atomic_load(&threads_made_and_joined);
    if (!steers)
        return;
    plan->words_from = (uintptr_t)standing;
    plan->words_to = (uintptr_t)(standing + STANDING);
    atomic_store(&plan->process, getpid());
    atomic_fetch_add(&plan->processes, 1);
}
