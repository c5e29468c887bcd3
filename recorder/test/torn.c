/*
 * torn: threads that ask for locks at random, by the table of pairs of single locks alone (../single_pairs.c), which is
 * widened meanwhile. Each keeps what it asked for. In the end each request has to be one of which the table tells: by its
 * thread or by many, and with no lock held besides that it lacked. What the lines tell has to be what the table has.
 */
#include "../runtime/single_pairs.c"

#include <stdio.h>
#include <stdlib.h>
#include <string.h>

enum { THREADS_MOST = 4, LOCKS_OF = 40, HELD_AT_ONCE = 7, TURNS = 60000, LINES = 1 << 20 };

/* What the file needs of others. */
__thread struct thread self __attribute__((tls_model("initial-exec")));
uint32_t life;
static struct wit_condensed condensed;
struct wit_condensed *pairs = &condensed;
static pthread_mutex_t mutex = PTHREAD_MUTEX_INITIALIZER;

void *table(size_t bytes) { return calloc(1, bytes); }
void table_goes(void *memory, size_t bytes) { (void)bytes, free(memory); }
bool recorder_enters(void) { return pthread_mutex_lock(&mutex) == 0; }
void recorder_leaves(void) { pthread_mutex_unlock(&mutex); }
void aside(void (*function)(void *), void *argument) { function(argument); }
void life_begins(struct thread *thread) { (void)thread; }
void write_no_more_pairs(void) { abort(); }

/* A line, or what a request was. */
struct told_pair {
    uint64_t key;
    uint32_t thread, besides;
    uint32_t beside[HELD_AT_ONCE];
};

static struct told_pair *line;
static uint32_t lines;

void write_pair(struct request *request, const struct held *held, const struct single_pair *pair, bool again)
{
    struct told_pair *next = &line[lines++];
    if (lines == LINES || again)
        abort();
    next->key = single_pair_key(held, request->lock, request->mode, how_of(request));
    next->thread = request->thread->serial;
    for (uint32_t i = 0; i < BESIDES; i++)
        if (pair->beside[i])
            next->beside[next->besides++] = pair->beside[i];
}

static struct lock locks[LOCKS_OF];
static struct told_pair *asked[THREADS_MOST];
static uint32_t asks[THREADS_MOST];

static uint32_t random_below(uint32_t *seed, uint32_t limit)
{
    *seed = *seed * 1664525 + 1013904223;
    return (*seed >> 8) % limit;
}

/* So many locks, none twice, and one more that is asked for. */
static void hold_some(uint32_t *seed, uint32_t count, struct request *request)
{
    uint32_t number = random_below(seed, LOCKS_OF), step = 1 + 2 * random_below(seed, 3);
    self.count = count;
    for (uint32_t i = 0; i <= count; i++, number = (number + step) % LOCKS_OF) {
        enum mode mode = random_below(seed, 4) ? EXCLUSIVE : SHARED;
        if (i < count)
            self.held[i] = (struct held){.lock = &locks[number], .count = 1, .mode = mode};
        else
            *request = (struct request){.thread = &self, .lock = &locks[number], .mode = mode};
    }
}

static void keep(uint32_t thread, const struct request *request)
{
    for (uint32_t i = 0; i < self.count; i++) {
        struct told_pair *next = &asked[thread][asks[thread]++];
        uint64_t key = single_pair_key(&self.held[i], request->lock, request->mode, how_of(request));
        *next = (struct told_pair){.key = key, .thread = self.serial};
        for (uint32_t other = 0; other < self.count; other++)
            if (other != i)
                next->beside[next->besides++] = beside_of(&self.held[other]);
    }
}

static void *hammer(void *argument)
{
    static __thread struct held held[HELD_AT_ONCE];
    uint32_t thread = (uint32_t)(uintptr_t)argument, seed = thread * 7919 + 1;
    self.serial = thread + 1;
    self.held = held;
    for (uint32_t turn = 0; turn < TURNS; turn++) {
        struct request request;
        hold_some(&seed, 1 + random_below(&seed, HELD_AT_ONCE), &request);
        request.timed = random_below(&seed, 8) == 0;
        pairs_noted(&request);
        keep(thread, &request);
        /* What is known stays so. */
        if (!single_pairs_are_known(&self, request.lock, request.mode, how_of(&request)))
            abort();
    }
    return NULL;
}

static bool is_in(const uint32_t *beside, uint32_t count, uint32_t wanted)
{
    for (uint32_t i = 0; i < count; i++)
        if ((beside[i] & SERIAL_MOST) == (wanted & SERIAL_MOST))
            return (wanted & BESIDE_SHARED) || !(beside[i] & BESIDE_SHARED);
    return false;
}

/* Whether the table tells of the request. */
static bool is_covered(const struct told_pair *request)
{
    const struct single_pair *pair = single_pair_found(request->key);
    bool covers = pair && single_pair_has(pair, request->thread);
    for (uint32_t i = 0; covers && i < BESIDES; i++)
        covers = !pair->beside[i] || is_in(request->beside, request->besides, pair->beside[i]);
    return covers;
}

/* The last line of a pair has what the table has; its threads are those of its lines. */
static uint32_t lines_that_differ(void)
{
    uint32_t differ = 0;
    bool *seen = calloc(LINES, sizeof *seen);
    for (uint32_t i = lines; i-- > 0;) {
        const struct single_pair *pair = single_pair_found(line[i].key);
        bool is_last = pair && !seen[pair - atomic_load(&single_table)->pair];
        differ += !pair || !single_pair_has(pair, line[i].thread);
        if (!is_last)
            continue;
        seen[pair - atomic_load(&single_table)->pair] = true;
        uint32_t kept = 0;
        for (uint32_t at = 0; at < BESIDES; at++)
            if (pair->beside[at] != 0)
                differ += line[i].beside[kept++] != pair->beside[at];
        differ += kept != line[i].besides;
    }
    free(seen);
    return differ;
}

int main(void)
{
    pthread_t thread[THREADS_MOST];
    uint32_t all = 0, lost = 0;
    line = calloc(LINES, sizeof *line);
    for (uint32_t i = 0; i < LOCKS_OF; i++)
        locks[i].serial = i + 1;
    if (!single_pairs_made())
        return 1;
    for (uint32_t i = 0; i < THREADS_MOST; i++) {
        asked[i] = calloc((size_t)TURNS * HELD_AT_ONCE, sizeof *asked[i]);
        pthread_create(&thread[i], NULL, hammer, (void *)(uintptr_t)i);
    }
    for (uint32_t i = 0; i < THREADS_MOST; i++)
        pthread_join(thread[i], NULL);
    for (uint32_t i = 0; i < THREADS_MOST; i++)
        for (uint32_t at = 0; at < asks[i]; at++, all++)
            lost += !is_covered(&asked[i][at]);
    printf("%s %u lost %u differ\n", all > TURNS && pairs_kept > SLOTS_FIRST ? "many" : "few", lost, lines_that_differ());
    return 0;
}
