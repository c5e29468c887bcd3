/*
 * Errors in the use of locks that aren't orders. Each is written once for a place: where the call was made, or of a lock
 * that is still held when its thread ends or its memory is freed, where it was taken.
 */
#include "quick.h"

#include <limits.h>

/* Errors that were written, by their kind and place, so that none is written twice. What finds no room isn't written. */
enum { ERRORS_MOST = 1024 };

static uint64_t known[ERRORS_MOST];

/* The key of which each thread has a value, so that its end is noticed. */
static pthread_key_t key;
static bool has_key;

/* Keys from here on take memory of the program's for their values. */
enum { KEYS_WITHOUT_MEMORY = 32 };

static bool is_new(enum lock_error error, uint32_t place)
{
    uint64_t wanted = (uint64_t)life << 40 | (uint64_t)place << 8 | (uint64_t)error | 0x80;
    for (uint32_t slot = 0; slot < ERRORS_MOST && known[slot] != wanted; slot++)
        if (known[slot] == 0) {
            known[slot] = wanted;
            return true;
        }
    return false;
}

/* A robust mutex is meant for it that its holder ends. Its memory may be gone. */
static bool is_robust(const struct lock *lock)
{
    pthread_mutex_t mutex;
    return lock->type->class == MUTEX && lock_read(lock, &mutex, sizeof mutex) && (mutex.__data.__kind & 16);
}

/* The thread holds the lock still. */
static bool stands_for_lock(const struct held *held)
{
    return held->lost == atomic_load(&held->lock->lost) && atomic_load(&held->lock->address) != 0;
}

/* `error WORD SEAT LOCK PLACE`: the words are those of errors, in their order. */
static COLD void tell(enum lock_error error, struct lock *lock, uint32_t place)
{
#define WORD_OF(error, word) word,
    static const char *const words[] = {EACH_ERROR(WORD_OF)};
    if (!is_new(error, place))
        return;
    SEATED_OR(&self) return;
    uint32_t number = lock_number(&self, lock), site = number ? place_number(place) : 0;
    if (number != 0)
        write_line(WORD_ERROR " %s %u %u %u", words[error], self.seat, number, site);
}

struct met {
    enum lock_error error;
    const void *address;
    struct caller caller;
};

static void tell_met(void *argument)
{
    const struct met *it = argument;
    uint32_t place = place_of(it->caller);
    ENTERS_OR return;
    struct lock *lock = lock_at(it->address);
    if (lock)
        tell(it->error, lock, place);
}

void error_at(enum lock_error error, const void *address, struct caller caller)
{
    struct met it = {error, address, caller};
    GOES_INSIDE_OR(caller.stack) return;
    aside(tell_met, &it);
}

/* A handler of fork may make the locks anew that it took for the child, as those of allocators do. */
void error_if_held(enum lock_error error, const void *address, struct caller caller)
{
    struct held *held = self.count ? held_of(&self, lock_at(address)) : NULL;
    if (held && stands_for_lock(held) && !held->before_fork)
        error_at(error, address, caller);
}

void error_of_freed(struct lock *lock)
{
    struct held *held = held_of(&self, lock);
    if (held && stands_for_lock(held))
        tell(ERROR_FREED, lock, held->place);
}

/*
 * The lock is one that a writer has before further readers, where that is its kind: then a writer that waits in between
 * waits for the thread, and the thread for the writer. Whether a lock that the program tells of is so isn't known.
 */
static void tell_reread(void *argument)
{
    const struct request *request = argument;
    ENTERS_OR return;
    count_missed(MISSED_REREADS);
    if (request->lock->type->class != TOLD_RWLOCK)
        tell(ERROR_REREAD, request->lock, request->place);
}

COLD void error_of_reread(struct request *request)
{
    const pthread_rwlock_t *lock = (const void *)atomic_load(&request->lock->address);
    if (request->again_refused)
        return; /* it writes the lock */
    if (request->lock->type->class == TOLD_RWLOCK || lock->__data.__flags == PTHREAD_RWLOCK_PREFER_WRITER_NONRECURSIVE_NP)
        aside(tell_reread, request);
}

void error_of_wait(const pthread_mutex_t *mutex, struct caller caller)
{
    if (mutex->__data.__lock == 0
        || ((mutex->__data.__kind & 3) != PTHREAD_MUTEX_ADAPTIVE_NP && mutex->__data.__owner != 0
            && mutex->__data.__owner != gettid()))
        error_at(ERROR_WAITED, mutex, caller);
}

static void tell_held(void *unused)
{
    (void)unused;
    ENTERS_OR return;
    for (uint32_t i = 0; i < self.count; i++)
        if (stands_for_lock(&self.held[i]) && !is_robust(self.held[i].lock))
            tell(ERROR_ENDED, self.held[i].lock, self.held[i].place);
}

/*
 * The thread ends. It may have held the lock up to here for what its other values need, so only the last round of
 * destructors counts.
 */
static void thread_ends(void *round)
{
    if ((uintptr_t)round < PTHREAD_DESTRUCTOR_ITERATIONS) {
        pthread_setspecific(key, (void *)((uintptr_t)round + 1));
        return;
    }
    if (self.count == 0 || !goes_far_inside(HERE))
        return;
    /* A thread that is gone asks for nothing. */
    if (self.repeated.lingers)
        repeat_ends(&self);
    aside(tell_held, NULL);
    goes_outside(&self);
}

void errors_begin(void)
{
    has_key = pthread_key_create(&key, thread_ends) == 0;
    if (has_key && key >= KEYS_WITHOUT_MEMORY) {
        pthread_key_delete(key);
        has_key = false;
    }
}

void errors_of_thread(void)
{
    if (has_key)
        pthread_setspecific(key, (void *)1);
}
