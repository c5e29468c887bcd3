/*
 * The locks at their addresses, and their types.
 *
 * A type is where its locks come from. A lock with an init call: that call's callers and, where the lock stands in a
 * variable of an object, the variable. A lock without one, as a static initialiser makes it: its address where it
 * stands in an object, else the callers of its first use. Records are found by their address without the mutex: they
 * are chained by pieces of memory, so that a freed block finds the locks that were in it.
 */
#include "label.h"
#include "recorder.h"

#include <malloc.h>
#include <string.h>

enum { TYPE_BUCKETS = 1 << 12 };
/* Memory is counted in regions: one without locks is passed over as a whole. */
enum { REGION_BYTES = 1 << 16, REGIONS = 1 << 15 };

/* Records and names are taken a piece at a time. The first one is there from the start, and has all that a trace has room for. */
enum { PIECE_LOCKS = LOCKS, PIECES = LOCKS_ALIVE / PIECE_LOCKS };

_Atomic(struct lock *) *lock_buckets;
static void *lock_pieces[PIECES], *name_pieces[PIECES];
static struct lock *free_locks;
static uint32_t locks_taken;
static _Atomic uint32_t locks_in_memory; /* those that free has to look for */

static _Atomic uint32_t in_regions[REGIONS]; /* locks in memory, in all regions of that slot */

static uint32_t names_taken;

static struct type *types;
static uint32_t types_met;
static struct type *type_buckets[TYPE_BUCKETS];

/* What stands there for the number, of that size; NULL where there is no room for it. */
static void *numbered(void *pieces[PIECES], uint32_t number, size_t size)
{
    void **piece = number < LOCKS_ALIVE ? &pieces[number / PIECE_LOCKS] : NULL;
    if (piece && !*piece)
        *piece = table(PIECE_LOCKS * size);
    return piece && *piece ? (char *)*piece + number % PIECE_LOCKS * size : NULL;
}

static struct lock *lock_numbered(uint32_t number)
{
    return numbered(lock_pieces, number, sizeof(struct lock));
}

bool locks_made(void)
{
    lock_buckets = table(LOCK_BUCKETS * sizeof *lock_buckets);
    types = table((TYPES_MET + 1) * sizeof *types);
    return lock_buckets && types && lock_numbered(0) && numbered(name_pieces, 0, sizeof(struct name));
}

static inline _Atomic uint32_t *in_region(uintptr_t address)
{
    uintptr_t region = address / REGION_BYTES;
    return &in_regions[(region ^ region >> 15) % REGIONS];
}

/* A lock in an object goes with that, and one that has no address (annotations.c) is in no memory. */
static bool is_in_memory(const struct lock *lock)
{
    return !lock->type->anchor && !(atomic_load(&lock->address) & HANDLE);
}

/* Between these lie all locks in memory that ever were. */
static _Atomic uintptr_t lowest = UINTPTR_MAX, highest;

/* One lock more, or fewer, that free has to look for. */
static void count_in_memory(uintptr_t address, bool more)
{
    uint32_t change = more ? 1 : UINT32_MAX;
    if (address < atomic_load(&lowest))
        atomic_store(&lowest, address);
    if (address > atomic_load(&highest))
        atomic_store(&highest, address);
    atomic_fetch_add(&locks_in_memory, change);
    atomic_fetch_add(in_region(address), change);
}

/* The first address from there on in whose region may be locks, or one behind the end. */
static inline uintptr_t pass_over(uintptr_t at, uintptr_t end)
{
    while (at < end && atomic_load_explicit(in_region(at), memory_order_relaxed) == 0)
        at = (at / REGION_BYTES + 1) * REGION_BYTES;
    return at;
}

/* The type that it would be if nothing were known of its block. */
static struct type without_part(const struct type *wanted)
{
    struct type type = *wanted;
    type.part = 0;
    if (wanted->met)
        memcpy(type.places, wanted->uses, sizeof type.places);
    memset(type.uses, 0, sizeof type.uses);
    return type;
}

/* Both come from one place: they are of one type, but for the offset in a block. */
static bool are_kin(const struct type *type, const struct type *wanted)
{
    return type->anchor == wanted->anchor && type->class == wanted->class && type->object == wanted->object
        && type->label == wanted->label && type->met == wanted->met && !type->part == !wanted->part
        && memcmp(type->places, wanted->places, sizeof type->places) == 0;
}

/* Its kin are as many as may be told by their offsets: from here on none is, nor was. */
static COLD void crowd(struct type *kin, const struct type *wanted)
{
    for (; kin; kin = kin->next)
        if (are_kin(kin, wanted) && !kin->crowded) {
            kin->crowded = true;
            write_crowded(kin);
        }
}

/* Kin is in one bucket. */
static struct type **type_bucket(const struct type *wanted)
{
    uint64_t hash = (wanted->anchor + wanted->class) ^ (uintptr_t)wanted->label;
    for (uint32_t i = 0; i < DEPTH_MOST; i++)
        hash = (hash ^ wanted->places[i]) * 0x9e3779b97f4a7c15u;
    return &type_buckets[(hash >> 40) % TYPE_BUCKETS];
}

static struct type *type_of(const struct type *wanted)
{
    struct type **bucket = type_bucket(wanted), *type = *bucket;
    uint32_t kin = 0;
    for (; type && !(are_kin(type, wanted) && type->part == wanted->part); type = type->next)
        kin += are_kin(type, wanted);
    if (type && !type->crowded)
        return type;
    if (type || kin == OFFSETS_MOST) {
        crowd(*bucket, wanted);
        struct type plain = without_part(wanted);
        return type_of(&plain);
    }
    if (types_met == TYPES_MET)
        return NULL;
    type = &types[++types_met];
    memcpy(type, wanted, sizeof *type);
    type->number = types_met;
    type->free_end = &type->free;
    type->next = *bucket;
    *bucket = type;
    return type;
}

/*
 * A name for a lock that has none, NULL where there is no room for one. A lock in an object has the name of its variable
 * alone; any other may have that of one that is gone.
 */
static struct name *name_for(struct type *type, uintptr_t address, const struct lock *lock)
{
    uintptr_t variable = type->anchor ? address : 0;
    struct name **link = &type->free, *name;
    for (; (name = *link) != NULL; link = &name->next)
        if (name->variable == variable && name->recursive == lock->recursive && name->shared == lock->shared) {
            *link = name->next;
            if (type->free_end == &name->next)
                type->free_end = link;
            return name;
        }
    name = numbered(name_pieces, names_taken, sizeof *name);
    if (!name)
        return NULL;
    names_taken++;
    *name = (struct name){.variable = variable,
        .number = ++type->names_made,
        .recursive = lock->recursive,
        .shared = lock->shared};
    return name;
}

static void give_name_back(struct type *type, struct name *name)
{
    name->next = NULL;
    *type->free_end = name;
    type->free_end = &name->next;
}

/* Who holds the lock by its chain finds out at its next call. */
void lock_given_up(struct lock *lock)
{
    atomic_fetch_add(&lock->lost, 1);
    atomic_fetch_add(&lost_total, 1);
}

/* A mutex shows whether it is held, as long as its memory is there. */
static bool is_free(const struct lock *lock)
{
    const pthread_mutex_t *mutex = (const void *)atomic_load(&lock->address);
    return lock->type->class == MUTEX && mutex->__data.__lock == 0;
}

/* The record is no longer that of its lock: who holds it by its chain has lost it. */
static void forget(struct lock *lock, bool nobody_holds)
{
    _Atomic(struct lock *) *link = lock_bucket(atomic_load(&lock->address));
    while (atomic_load(link) != lock)
        link = &atomic_load(link)->next;
    atomic_store(link, atomic_load(&lock->next));
    if (is_in_memory(lock))
        count_in_memory(atomic_load(&lock->address), false);
    atomic_store(&lock->address, 0);
    give_name_back(lock->type, lock->name);
    if (!nobody_holds)
        lock_given_up(lock);
    atomic_store(&lock->next, free_locks);
    free_locks = lock;
}

/* How many locks there ever were. */
static _Atomic uint32_t serials;

/* What a mutex's kind is among others; a rwlock's has it here alone. */
enum { SHARED_BY_PROCESSES = 128 };

/* Read outside the mutex: a handler of the program's may bring the memory that a mutex is in, and may lock others for it. */
static int kind_at(const void *address, enum class class)
{
    if (class == SHARED_SPIN || class == SHARED_SEMAPHORE)
        return SHARED_BY_PROCESSES;
    if (class == RWLOCK)
        return *(const volatile int *)&((const pthread_rwlock_t *)address)->__data.__shared ? SHARED_BY_PROCESSES : 0;
    return class == MUTEX ? *(const volatile int *)&((const pthread_mutex_t *)address)->__data.__kind : 0;
}

static void take_kind(struct lock *lock, enum class class, int kind)
{
    bool robust = kind & 16;
    lock->shared = kind & SHARED_BY_PROCESSES;
    lock->recursive = class == MUTEX && (kind & 3) == PTHREAD_MUTEX_RECURSIVE_NP;
    lock->loses = class == SPIN || class == SHARED_SPIN || class == SEMAPHORE || class == SHARED_SEMAPHORE
        || (class == MUTEX && !robust
            && ((kind & 3) == PTHREAD_MUTEX_TIMED_NP || (kind & 3) == PTHREAD_MUTEX_ADAPTIVE_NP));
}

static struct lock *add(const void *address, const struct type *wanted, int kind)
{
    struct type *type = type_of(wanted);
    struct lock *lock = free_locks ? free_locks : lock_numbered(locks_taken);
    if (!type || !lock) {
        count_missed(type ? MISSED_LOCKS : MISSED_TYPES);
        return NULL;
    }
    take_kind(lock, wanted->class, kind);
    lock->name = name_for(type, (uintptr_t)address, lock);
    if (!lock->name) {
        count_missed(MISSED_LOCKS);
        return NULL;
    }
    if (lock == free_locks)
        free_locks = atomic_load(&lock->next);
    else
        locks_taken++;
    lock->type = type;
    lock->serial = ++serials;
    if (UNLIKELY(lock->serial == SERIAL_MOST))
        single_pairs_end();
    atomic_store(&lock->left_alone, false);
    memset(&lock->marks, 0, sizeof lock->marks);
    _Atomic(struct lock *) *bucket = lock_bucket((uintptr_t)address);
    atomic_store(&lock->next, atomic_load(bucket));
    atomic_store(&lock->address, (uintptr_t)address);
    if (is_in_memory(lock))
        count_in_memory((uintptr_t)address, true);
    atomic_store_explicit(bucket, lock, memory_order_release);
    return lock;
}

/*
 * Variables that have more locks than this are arrays of locks: these are one type, by the variable. Which variable a lock
 * is in is only looked for in objects that have so many locks.
 */
enum { FEW_LOCKS = 16, ARRAYS = 1 << 12 };

static struct array {
    uintptr_t from;
    uint32_t object, locks;
} arrays[ARRAYS], in_objects[ARRAYS];

/* How many locks were counted there by now, with this one. */
static uint32_t counted(struct array *table, uintptr_t from, uint32_t object)
{
    struct array *array = &table[(uint32_t)((from + object) * 0x9e3779b97f4a7c15u >> 52) % ARRAYS];
    if (array->from != from || array->object != object)
        *array = (struct array){from, object, 0};
    return ++array->locks;
}

/*
 * What the type of a lock in an object goes by: the variable that it is in. Where no init call has made it, that is the lock
 * itself unless the variable is an array.
 */
static uintptr_t anchor_of(const struct type *wanted)
{
    uintptr_t from, address = wanted->address;
    uint32_t object = wanted->object;
    if ((wanted->met && counted(in_objects, 0, object) <= FEW_LOCKS)
        || !object_symbol(object, address, false, &from, NULL, NULL))
        return address;
    return wanted->met && counted(arrays, from, object) <= FEW_LOCKS ? address : from;
}

/*
 * In a block of memory the lock's offset is part of its type. Of a lock that no call makes it isn't the place of its first
 * use that counts then, but the one that took the block.
 */
static void look_for_block(struct type *wanted)
{
    uint32_t takers[DEPTH_MOST];
    uint64_t offset;
    if (!block_around(wanted->address, &offset, takers) || (wanted->met && takers[0] == 0))
        return;
    wanted->part = offset + 1;
    if (!wanted->met)
        return;
    memcpy(wanted->uses, wanted->places, sizeof wanted->uses);
    memcpy(wanted->places, takers, sizeof wanted->places);
}

/* A lock comes to be known: by its first use, or by an init call, which may give its type a name. */
struct coming {
    const void *address;
    enum class class;
    struct caller caller;
    bool met;
    const char *type;
    struct lock *lock; /* its record, or NULL where it can't be recorded */
};

static void come(void *argument)
{
    struct coming *it = argument;
    struct type wanted = {.class = it->class, .met = it->met, .address = (uintptr_t)it->address};
    /* This comes before the search for the lock's object, since it looks for objects that are new. */
    places_of(it->caller, wanted.places);
    int kind = kind_at(it->address, it->class);
    ENTERS_OR return;
    it->lock = lock_at(it->address);
    if (it->lock && it->met)
        return;
    if (it->lock)
        forget(it->lock, false);
    wanted.label = type_label(it->type);
    if (!wanted.label)
        wanted.object = object_of(wanted.address, false);
    if (wanted.object)
        wanted.anchor = anchor_of(&wanted);
    else if (!wanted.label)
        look_for_block(&wanted);
    if (wanted.object && it->met)
        memset(wanted.places, 0, sizeof wanted.places);
    it->lock = add(it->address, &wanted, kind);
}

COLD struct lock *lock_met(const void *address, enum class class, struct caller caller)
{
    struct coming it = {address, class, caller, true, NULL, NULL};
    come(&it);
    return it.lock;
}

/* An init call has made a lock there, of a type of that name; NULL where it is to be told by variable and callers. */
void lock_made_as(const void *address, enum class class, struct caller caller, const char *type)
{
    struct coming it = {address, class, caller, false, type, NULL};
    GOES_INSIDE_OR(caller.stack) return;
    aside(come, &it);
}

/* The lock there was destroyed. */
void lock_gone(const void *address)
{
    GOES_INSIDE_OR(HERE) return;
    if (!lock_at(address))
        return;
    ENTERS_OR return;
    struct lock *lock = lock_at(address);
    if (lock)
        forget(lock, is_free(lock));
}

struct lock *lock_held_from(uint32_t *at, int32_t *holder)
{
    for (; *at < locks_taken; (*at)++) {
        struct lock *lock = lock_numbered(*at);
        if (atomic_load(&lock->address) && lock->type->class == MUTEX && (*holder = lock_holder(lock)) != 0)
            return lock;
    }
    *at = LOCKS_ALIVE;
    return NULL;
}

/* A lock up to the youngest of these in the block, from the piece on that *at stands in; NULL where there is none. */
static struct lock *lock_in(uintptr_t *at, uintptr_t end, uint32_t youngest)
{
    while ((*at = pass_over(*at, end)) < end) {
        struct lock *lock = atomic_load_explicit(lock_bucket(*at), memory_order_acquire);
        for (; lock; lock = atomic_load_explicit(&lock->next, memory_order_acquire)) {
            uintptr_t address = atomic_load_explicit(&lock->address, memory_order_relaxed);
            if (address >= *at && address < end && lock->serial <= youngest)
                return lock;
        }
        *at = (*at / LOCK_PIECE + 1) * LOCK_PIECE;
    }
    return NULL;
}

struct block {
    uintptr_t from, end;
};

static void free_locks_in(void *argument)
{
    const struct block *block = argument;
    uintptr_t at = block->from;
    struct lock *lock;
    ENTERS_OR return;
    while ((lock = lock_in(&at, block->end, UINT32_MAX)) != NULL) {
        error_of_freed(lock);
        forget(lock, is_free(lock));
    }
}

/* The block is about to be freed, and the locks in it with it. */
void locks_freed(const void *block)
{
    if (LIKELY(atomic_load_explicit(&locks_in_memory, memory_order_relaxed) == 0) || !watches_free)
        return;
    uintptr_t at = (uintptr_t)block, end = at + malloc_usable_size((void *)block);
    if (at > atomic_load_explicit(&highest, memory_order_relaxed)
        || end <= atomic_load_explicit(&lowest, memory_order_relaxed) || LIKELY(!lock_in(&at, end, UINT32_MAX)))
        return;
    GOES_INSIDE_OR(HERE) return;
    aside(free_locks_in, &(struct block){at, end});
}

bool type_label_was_met(const struct type *type)
{
    for (uint32_t i = 1; i < type->number; i++)
        if (types[i].label && labels_part(types[i].label, type->label))
            return true;
    return false;
}

uint32_t lock_youngest(void)
{
    return atomic_load_explicit(&serials, memory_order_relaxed);
}

/* What was there stands elsewhere by now, and there may be locks of others. */
void locks_left(uintptr_t from, uintptr_t to, uint32_t youngest)
{
    if (pass_over(from, to) >= to)
        return;
    GOES_INSIDE_OR(HERE) return;
    ENTERS_OR return;
    for (struct lock *lock; (lock = lock_in(&from, to, youngest)) != NULL;)
        forget(lock, false);
}

void object_gone(uintptr_t from, uintptr_t to)
{
    for (uint32_t i = 0; i < locks_taken; i++) {
        struct lock *lock = lock_numbered(i);
        uintptr_t address = atomic_load_explicit(&lock->address, memory_order_relaxed);
        if (address >= from && address < to)
            forget(lock, false);
    }
    places_closed(from, to);
}

/* The program has closed a library. */
void library_closed(void)
{
    GOES_INSIDE_OR(HERE) return;
    objects_look();
}
