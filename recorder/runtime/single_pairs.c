/*
 * The pairs of single locks. A trace tells of types. Whether these very locks were taken both ways, by which threads, and
 * what else was held meanwhile is told by lines of their own (recorder/README.md, "The recorder's file"). When something was
 * is told by how many threads had been made and joined before.
 *
 * A line comes whenever what is kept of a pair changes (single_pairs.h). So the locks of the last one are those that were
 * held each time. A third thread has a line; of further ones it isn't told. One of the first two tells its pair again when
 * it has made another thread since its last line.
 *
 * The table is hashed, and at most half full. A wider one takes its place then; what it has is copied, and the old one stays
 * for those that read it. The widest one has room for 2^21 pairs, which are 64 MiB. All tables together are 85 MiB then.
 */
#include "quick.h"
#include "single_pairs.h"

enum { SLOTS_FIRST = 1 << 11, SLOTS_MOST = 1 << 21, WIDER = 4, PAIRS_MOST = 1000000 };

_Atomic(struct single_table *) single_table;
_Atomic bool single_table_is_full;
static uint32_t pairs_kept;

static size_t bytes_of(uint32_t slots)
{
    return sizeof(struct single_table) + slots * sizeof(struct single_pair);
}

static struct single_table *table_of(uint32_t slots)
{
    struct single_table *made = table(bytes_of(slots));
    if (made)
        made->mask = slots - 1;
    return made;
}

bool single_pairs_made(void)
{
    struct single_table *first = table_of(SLOTS_FIRST);
    atomic_store(&single_table, first);
    return first != NULL;
}

/* The child's stream has none of them yet. It has one thread. */
void single_pairs_forked(void)
{
    struct single_table *present = atomic_load(&single_table);
    uint32_t mask = present->mask;
    madvise(present, bytes_of(mask + 1), MADV_DONTNEED);
    present->mask = mask;
    pairs_kept = 0;
    atomic_store(&single_table_is_full, false);
}

/* A free slot for the pair; NULL where none is near. */
static struct single_pair *free_slot(struct single_table *within, uint64_t key)
{
    uint32_t slot = single_pair_slot(within, key);
    for (uint32_t tries = 0; tries < PAIR_TRIES; tries++, slot = (slot + 1) & within->mask)
        if (atomic_load_explicit(&within->pair[slot].key, memory_order_relaxed) == 0)
            return &within->pair[slot];
    return NULL;
}

static bool is_copied(struct single_table *wide, const struct single_pair *from)
{
    uint64_t key = atomic_load_explicit(&from->key, memory_order_relaxed);
    struct single_pair *to = key ? free_slot(wide, key) : NULL;
    if (to)
        memcpy(to, from, sizeof *to);
    return to || key == 0;
}

/* False where there is no wider table. */
static bool is_widened(void)
{
    struct single_table *narrow = atomic_load(&single_table);
    uint32_t slots = (narrow->mask + 1) * WIDER;
    struct single_table *wide = slots <= SLOTS_MOST ? table_of(slots) : NULL;
    bool all = wide != NULL;
    for (uint32_t i = 0; all && i <= narrow->mask; i++)
        all = is_copied(wide, &narrow->pair[i]);
    if (all)
        atomic_store_explicit(&single_table, wide, memory_order_release);
    else if (wide)
        table_goes(wide, bytes_of(slots));
    return all;
}

/* A slot for one more pair; NULL where there is no room. */
static struct single_pair *new_slot(uint64_t key)
{
    struct single_table *present = atomic_load(&single_table);
    if (pairs_kept == PAIRS_MOST || (2 * (pairs_kept + 1) > present->mask && !is_widened()))
        return NULL;
    struct single_pair *slot = free_slot(atomic_load(&single_table), key);
    if (!slot && is_widened())
        slot = free_slot(atomic_load(&single_table), key);
    return slot;
}

static uint32_t beside_of(const struct held *held)
{
    return held->lock->serial | (held->mode == SHARED ? BESIDE_SHARED : 0);
}

/* The pair of what is held there and of the lock that is asked for, as this thread makes it first. */
static struct single_pair *pair_made(const struct thread *thread, uint32_t at, uint64_t key)
{
    struct single_pair *pair = new_slot(key);
    if (!pair)
        return NULL;
    atomic_store_explicit(&pair->thread[0], thread->serial, memory_order_relaxed);
    for (uint32_t i = 0, kept = 0; i < thread->count && kept < BESIDES; i++)
        if (i != at)
            atomic_store_explicit(&pair->beside[kept++], beside_of(&thread->held[i]), memory_order_relaxed);
    atomic_store_explicit(&pair->key, key, memory_order_release);
    pairs_kept++;
    return pair;
}

/* Whether that is new. AGAIN: the thread stands there, and has made another one since. */
static bool thread_is_added(struct single_pair *pair, uint32_t thread, bool *again)
{
    if (single_pair_has(pair, thread))
        return false;
    for (uint32_t i = 0; i < 2; i++) {
        uint32_t known = atomic_load_explicit(&pair->thread[i], memory_order_relaxed);
        *again = known != 0 && ((known ^ thread) & SERIAL_MOST) == 0;
        if (known == 0 || *again) {
            atomic_store_explicit(&pair->thread[i], thread, memory_order_relaxed);
            return true;
        }
    }
    atomic_fetch_or_explicit(&pair->thread[1], MORE_THREADS, memory_order_relaxed);
    return true;
}

/* Whether a lock was held besides each time before, and now isn't, or is by a reader. */
static bool common_are_fewer(struct single_pair *pair, const struct thread *thread)
{
    bool fewer = false;
    for (uint32_t i = 0; i < BESIDES; i++) {
        uint32_t beside = atomic_load_explicit(&pair->beside[i], memory_order_relaxed);
        if (beside == 0 || single_is_held(thread, beside))
            continue;
        bool is_read = single_is_held(thread, beside | BESIDE_SHARED);
        atomic_store_explicit(&pair->beside[i], is_read ? beside | BESIDE_SHARED : 0, memory_order_relaxed);
        fewer = true;
    }
    return fewer;
}

static enum asked_how how_of(const struct request *request)
{
    if (request->ends_wait)
        return ASKED_AS_A_WAIT_ENDS;
    return request->repeats ? ASKED_REPEATEDLY : request->timed ? ASKED_FOR_A_TIME : ASKED_PLAINLY;
}

/* From here on what isn't kept counts as known. */
COLD void single_pairs_end(void)
{
    if (!atomic_exchange(&single_table_is_full, true))
        write_no_more_pairs();
}

static void note_pair(struct request *request, uint32_t at)
{
    struct thread *thread = request->thread;
    const struct held *held = &thread->held[at];
    uint64_t key = single_pair_key(held, request->lock, request->mode, how_of(request));
    struct single_pair *pair = single_pair_found(key);
    bool again = false;
    if (pair) {
        bool is_new = thread_is_added(pair, thread->serial, &again);
        if (!common_are_fewer(pair, thread) && !is_new)
            return;
    } else if (atomic_load(&single_table_is_full)) {
        return;
    } else if (!(pair = pair_made(thread, at, key))) {
        single_pairs_end();
        return;
    }
    life_begins(thread);
    write_pair(request, held, pair, again);
}

static COLD void note_all(void *argument)
{
    struct request *request = argument;
    request->has_errand = false;
    ENTERS_OR return;
    for (uint32_t i = 0; i < request->thread->count; i++)
        note_pair(request, i);
}

void pairs_noted(struct request *request)
{
    const struct thread *thread = request->thread;
    enum asked_how how = how_of(request);
    if (how == ASKED_PLAINLY && is_remembered(thread, locks_with(locks_held(thread), request->lock, request->mode)))
        return;
    if (!single_pairs_are_known(thread, request->lock, request->mode, how))
        aside(note_all, request);
}

__attribute__((noinline)) bool request_is_known(struct thread *thread, const struct lock *lock, enum mode mode,
    uint64_t locks)
{
    if (held_of(thread, lock) || !chain_is_told(thread, lock->type)
        || !single_pairs_are_known(thread, lock, mode, ASKED_PLAINLY))
        return false;
    /* A pair by which a held lock was acquired under the lock that is asked for says less than one by which it wasn't. */
    for (uint32_t i = 0; i < thread->count; i++)
        if (is_acquired_under(&thread->held[i], lock))
            return true;
    remember(thread, locks);
    return true;
}
