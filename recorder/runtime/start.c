/*
 * The real functions behind the interposed ones, the start of the recorder, its mutex, and what a fork does.
 *
 * The recorder may be entered before its constructor has run, by the constructors of other objects: so the first call
 * of all starts it, whichever it is. A call that comes while its thread is inside the recorder (from a signal handler,
 * or from the C library on the recorder's behalf) is passed on and not recorded.
 */
#include "judge.h"
#include "steer.h"

#include <errno.h>
#include <fcntl.h>
#include <string.h>

struct real real;
__thread struct thread self __attribute__((tls_model("initial-exec")));
bool all_slow;
const char *skipped = "";
uint32_t depth = 2;
uint32_t life = 1;
char program_name[64];
bool watches_free;
_Atomic bool has_handlers;
_Atomic bool asleep;

extern char *program_invocation_short_name;
static pthread_mutex_t mutex = PTHREAD_MUTEX_INITIALIZER;
static _Atomic bool recording;
/* Of the thread that is inside: what it had outside. Where it is aside, it isn't cancelled in any case. */
enum { CANCELLATION_KEPT = -1 };
static struct outside {
    int error, cancellation;
    bool signals_wait;
    uint64_t signals;
} outside;
/* By its name the first of several recorders in a process is found; by the other name each finds itself. */
EXPORT const char witness_recorder = 1;
extern const char own_recorder __attribute__((alias("witness_recorder"), visibility("hidden")));
/* A byte that is 1 here and 0 in a child that came about without fork's handlers. */
static volatile char *alive;
static __thread bool forks;

static void find_real(void *real_function, const char *name, const char *version)
{
    void *found = version ? dlvsym(RTLD_NEXT, name, version) : NULL;
    if (!found)
        found = dlsym(RTLD_NEXT, name);
    memcpy(real_function, &found, sizeof found);
}

void *mapped(size_t bytes, int protection, int how, int file, off_t from)
{
    void *memory = mmap(NULL, bytes, protection, how, file, from);
    if (memory == MAP_FAILED)
        return NULL;
    own_memory(memory, bytes);
    return memory;
}

void *table(size_t bytes)
{
    return mapped(bytes, PROT_READ | PROT_WRITE, MAP_PRIVATE | MAP_ANONYMOUS | MAP_NORESERVE, -1, 0);
}

void table_goes(void *memory, size_t bytes)
{
    own_memory_goes(memory);
    munmap(memory, bytes);
}

static bool settings_read(void)
{
    const char *frames = getenv("RECORDER_DEPTH");
    if (!secure_getenv("RECORDER_DIRECTORY") && !judge_is_wanted())
        return false;
    if (frames && frames[0] >= '1' && frames[0] <= '0' + (int)DEPTH_MOST && frames[1] == '\0')
        depth = (uint32_t)(frames[0] - '0');
    const char *shown = getenv("RECORDER_FRAMES"), *skip = getenv("RECORDER_SKIP");
    if (shown && atoi(shown) > 1 && atoi(shown) <= (int)FRAMES_MOST)
        frames_shown = (uint32_t)atoi(shown);
    if (skip)
        skipped = skip;
    stacks_all = frames_shown > 1 && getenv("RECORDER_HELD") != NULL;
    semaphores_are_locks = getenv("RECORDER_SEMAPHORES") != NULL;
    all_slow = steer_begins() || WRITES_ALL;
    if (all_slow)
        asked_page[ASKED_AT] = ASKED_ALWAYS;
    return true;
}

/* Whether an object that comes before this one records, as where `record` runs a program that is linked to libwitness. */
static bool is_second(void)
{
    const void *first = dlsym(RTLD_DEFAULT, "witness_recorder");
    return first && first != &own_recorder;
}

/* So much has to be there. The tables take a third of it: a program that has a limit needs the rest. */
enum { ROOM_BYTES = 128 << 20 };

static bool has_room(void)
{
    void *room = table(ROOM_BYTES);
    if (room)
        table_goes(room, ROOM_BYTES);
    return room != NULL;
}

/* False where there is no memory. Then the recorder stays off. */
static bool tables_made(void)
{
    if (!has_room() || !locks_made() || !places_made() || !sites_made() || !stacks_made() || !chains_made()
        || !single_pairs_made() || !blocks_made())
        return false;
    alive = table(4096);
    return alive != NULL;
}

/* Leaves a file by which record tells a program without nested requests from one that the recorder wasn't in. */
static void say_started(void)
{
    int file = status_file("started", O_WRONLY | O_CREAT | O_CLOEXEC, 0600);
    if (file >= 0)
        close(file);
}

/* Makes all that recording needs, where the environment or the program wants it, and begins. Once in a process. */
static void awake(void)
{
    static _Atomic bool made;
    if (is_second() || !settings_read() || atomic_exchange(&made, true))
        return;
    /* The words that it was started by may be overwritten later. */
    snprintf(program_name, sizeof program_name, "%s", program_invocation_short_name);
    own_object();
    status_made();
    if (!tables_made()) {
        semaphores_are_locks = false;
        say_started();
        status_loaded(LOADED_WITHOUT_MEMORY);
        judge_lacks_memory();
    } else if (stream_made()) {
        *alive = 1;
        madvise((void *)alive, 4096, MADV_WIPEONFORK);
        judge_begins();
        atomic_store(&recording, true);
    }
}

void start(void)
{
    static _Atomic bool begun;
    int before = errno;
    if (atomic_load_explicit(&begun, memory_order_relaxed) || atomic_exchange(&begun, true))
        return;
    self.state = STARTING;
#define FIND(function, version) find_real(&real.function, #function, version);
    EACH_REAL(FIND)
    awake();
    atomic_store(&asleep, !atomic_load(&recording));
    self.state = UNREADY;
    errno = before;
}

/* Whether a handler of signals called, on a stack of its own. One that was set by a bare call isn't remembered. */
static bool is_on_other_stack(const struct thread *thread, uintptr_t stack)
{
    stack_t other = {.ss_sp = (void *)thread->other_stack, .ss_size = thread->other_size};
    if (thread->other_size == 0 && real.sigaltstack(NULL, &other) != 0)
        return false;
    return !(other.ss_flags & SS_DISABLE) && stack - (uintptr_t)other.ss_sp <= other.ss_size;
}

/*
 * Whether the call that the thread is inside of was left: by a jump out of a handler of signals, or a cancellation. Not
 * where the caller is a handler on another stack than that call was.
 */
static bool has_left(const struct thread *thread, uintptr_t stack)
{
    if (thread->state == STARTING || is_aside(stack) || is_on_other_stack(thread, stack))
        return false;
    return stack >= thread->state || !call_goes_on(thread->state);
}

/*
 * Makes the thread ready at its first call, and where it has left an earlier one. False where it is inside the recorder
 * already, or nothing is recorded.
 */
COLD bool thread_opens(struct thread *thread, uintptr_t stack)
{
    if (thread->state > OPEN) {
        if (!has_left(thread, stack))
            return false;
        aside(write_left, thread);
    }
    start();
    if (!atomic_load(&recording))
        return false;
    if (!thread->held) {
        static _Atomic uint32_t serials;
        thread->held = thread->few;
        thread->room = HELD_FEW;
        thread->serial = atomic_fetch_add(&serials, 1) + 1;
    }
    if (thread->looks) {
        thread->looks = false;
        thread->state = STARTING;
        objects_look();
    }
    thread->state = OPEN;
    return true;
}

/* Takes a call inside that isn't a request. False where it isn't recorded. */
bool goes_far_inside(uintptr_t stack)
{
    if (is_asleep() || (self.state != OPEN && !thread_opens(&self, stack)))
        return false;
    self.state = stack;
    return true;
}

/* The process records no more: its calls are passed on at once. */
static void falls_asleep(void)
{
    atomic_store(&recording, false);
    atomic_store(&asleep, true);
    stream_is_left();
}

/* A child whose fork wasn't seen has no trace, and the tables may be half changed. That is counted once. */
static void stops_in_child(void)
{
    static _Atomic bool counted;
    atomic_store(&recording, false);
    if (atomic_exchange(&counted, true))
        return;
    falls_asleep();
    status_begins();
    count_failure(FAILED_FORKED);
}

/*
 * False where this process records no more: then nothing may be touched. Inside, a thread isn't cancelled, no handler
 * of the program runs in it (it may leave by a jump, or wait for another thread), and the program's errno is kept.
 */
bool recorder_enters(void)
{
    struct outside it = {.error = errno, .cancellation = CANCELLATION_KEPT};
    if (!*alive)
        stops_in_child();
    if (!atomic_load(&recording))
        return false;
    bool is_apart = is_aside((uintptr_t)__builtin_frame_address(0));
    it.signals_wait = atomic_load_explicit(&has_handlers, memory_order_relaxed) && !(is_apart && self.keeps_signals);
    if (it.signals_wait)
        change_signals(SIG_BLOCK, ~FAULTS, &it.signals);
    if (!is_apart)
        pthread_setcancelstate(PTHREAD_CANCEL_DISABLE, &it.cancellation);
    real.pthread_mutex_lock(&mutex);
    outside = it;
    return true;
}

void recorder_leaves(void)
{
    struct outside it = outside;
    real.pthread_mutex_unlock(&mutex);
    if (it.cancellation != CANCELLATION_KEPT)
        pthread_setcancelstate(it.cancellation, NULL);
    if (it.signals_wait)
        change_signals(SIG_SETMASK, it.signals, NULL);
    judge_looks();
    errno = it.error;
}

/*
 * A fork waits until nobody is inside the recorder, so that the child finds whole tables. The handlers of others may
 * take locks before that, and may wait for threads that are inside.
 */
static void fork_begins(void)
{
    forks = atomic_load(&recording) && self.state <= OPEN && recorder_enters();
}

static void fork_ends_in_parent(void)
{
    if (forks)
        recorder_leaves();
}

static void begin_child(void *unused)
{
    (void)unused;
    seats_forked();
    status_begins();
    stream_forked();
    chains_forked();
    waiters_forked();
    steer_forked();
    single_pairs_forked();
    lives_forked();
    errands_forked();
    threads_forked();
    judge_forked();
}

/* The child begins a trace of its own, in which its one thread holds what it held, and nothing is known. */
static void fork_ends_in_child(void)
{
    if (!forks) {
        falls_asleep();
        return;
    }
    *alive = 1;
    life++;
    aside_forked();
    aside(begin_child, NULL);
    recorder_leaves();
}

/*
 * Registers the recorder's handlers before all others: what is registered first is called last before the fork, and
 * first behind it. They belong to no object, so that they stay until the process ends.
 */
void fork_is_watched(void)
{
    static _Atomic bool watched;
    if ((atomic_load(&recording) || judge_is_there()) && !atomic_exchange(&watched, true))
        real.__register_atfork(fork_begins, fork_ends_in_parent, fork_ends_in_child, NULL);
}

/* That free and malloc_usable_size are of one object: else sizes can't be believed. */
static bool sizes_are_known(void)
{
    void *size = dlsym(RTLD_DEFAULT, "malloc_usable_size"), *given = dlsym(RTLD_NEXT, "free");
    uint32_t object = given ? object_of((uintptr_t)given, true) : 0;
    return size && object && object == object_of((uintptr_t)size, true);
}

/* What is to be known of the process before it goes on. */
static void look_round(void)
{
    self.state = STARTING;
    say_started();
    objects_begin();
    watches_free = sizes_are_known();
    errors_begin();
    self.state = UNREADY;
}

bool recorder_wakes(void)
{
    start();
    if (!atomic_load(&recording) && self.state == UNREADY) {
        self.state = STARTING;
        awake();
        if (atomic_load(&recording)) {
            look_round();
            atomic_store(&asleep, false);
            others_rebound();
        }
        self.state = UNREADY;
    }
    return atomic_load(&recording);
}

/* The first call of all may have come before the environment was there: a sanitizer makes it while it is loaded. */
__attribute__((constructor)) static void loaded(void)
{
    start();
    if (atomic_load(&recording)) {
        look_round();
        others_rebound();
    } else {
        recorder_wakes();
    }
    fork_is_watched();
}

__attribute__((destructor)) static void ended(void)
{
    if (!atomic_load(&recording) || self.state > OPEN)
        return;
    objects_look();
    if (!recorder_enters())
        return;
    stream_end();
    recorder_leaves();
    judge_ends();
}
