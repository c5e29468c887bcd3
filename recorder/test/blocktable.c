/*
 * blocktable THREADS TURNS [MANY]: the tables of blocks (blocks.c) by themselves. Threads take blocks of all sizes, let them
 * grow and give them back, their own and those of others. Of a block that is in use each address is found in it, with the
 * callers that took it. In the end the tables are empty. With MANY each thread first keeps so many blocks, more than there is
 * room for: then some aren't known, and what is known is right.
 */
#include "../runtime/blocks.c"

#include <stdio.h>

enum { KEPT = 64, SHARED_BLOCKS = 16, PLACE_OF_THREAD = 1000, PLACE_OF_GROWTH = 1, HUGE = 1 << 29 };

struct real real;
__thread struct thread self __attribute__((tls_model("initial-exec")));
uint32_t depth = 2;
_Atomic bool has_small_stacks;
static pthread_mutex_t mutex = PTHREAD_MUTEX_INITIALIZER;
static _Atomic uint32_t missed, wrong;
static long turns, many;

/* What a thread has taken. */
struct taken {
    char *at;
    size_t size;
    uintptr_t pc;
};
static _Atomic(struct taken *) shared[SHARED_BLOCKS];

void *table(size_t bytes) { return calloc(1, bytes); }
void start(void) {}
bool goes_far_inside(uintptr_t stack) { return stack != 0; }
bool recorder_enters(void) { return pthread_mutex_lock(&mutex) == 0; }
void recorder_leaves(void) { pthread_mutex_unlock(&mutex); }
void aside(void (*function)(void *), void *argument) { function(argument); }
uint32_t lock_youngest(void) { return 0; }
void locks_left(uintptr_t from, uintptr_t to, uint32_t youngest) { (void)from, (void)to, (void)youngest; }
void count_missed(enum missed what) { missed += what == MISSED_BLOCKS; }

bool takers_known(uintptr_t pc, uintptr_t stack, uintptr_t base, uint32_t wanted, uint32_t *found)
{
    (void)stack, (void)base;
    for (uint32_t i = 0; i < wanted; i++)
        found[i] = (uint32_t)pc + i;
    return true;
}

bool takers_unwound(struct caller caller, uint32_t wanted, uint32_t *found)
{
    return takers_known(caller.pc, caller.stack, caller.base, wanted, found);
}

/* Numbers by a rule, which differ by thread. */
static uint32_t next(uint64_t *seed)
{
    *seed = *seed * 6364136223846793005u + 1442695040888963407u;
    return (uint32_t)(*seed >> 33);
}

static size_t some_size(uint64_t *seed)
{
    static const size_t most[] = {40, 64, 200, 200, 1000, 4096, 5000, 70000, 1 << 21};
    return LEAST + next(seed) % most[next(seed) % (next(seed) % 64 == 0 ? 9 : 6)];
}

/* The callers that took the block; or, where it wasn't known any more when it grew, those that let it grow. */
static bool are_its(const struct taken *taken, const uint32_t takers[DEPTH_MOST])
{
    return takers[1] == takers[0] + 1 && (takers[0] == taken->pc || (many && takers[0] == PLACE_OF_GROWTH));
}

/* Some address of the block is in it, as long as that is in use. */
static void look(const struct taken *taken, size_t at)
{
    uint32_t takers[DEPTH_MOST] = {0};
    uint64_t offset = 0;
    recorder_enters();
    bool found = block_around((uintptr_t)taken->at + at, &offset, takers);
    recorder_leaves();
    if ((found && (offset != at || !are_its(taken, takers))) || (!found && !many))
        wrong++;
}

static void give_back(struct taken *taken)
{
    witness_block_goes(taken->at);
    free(taken->at);
    taken->at = NULL;
}

static void take(struct taken *taken, uint64_t *seed, uintptr_t pc)
{
    taken->size = some_size(seed);
    taken->pc = pc;
    taken->at = malloc(taken->size);
    witness_block_comes(taken->at, taken->size, pc, 1, 0);
}

static void grow(struct taken *taken, uint64_t *seed)
{
    taken->size = some_size(seed);
    taken->at = witness_block_moves(taken->at, taken->size, PLACE_OF_GROWTH, 1, 0, realloc);
}

/* Lays the block where another thread finds it, and takes what lay there. */
static void hand_over(struct taken *taken, uint64_t *seed)
{
    struct taken *own = malloc(sizeof *own);
    *own = *taken;
    taken->at = NULL;
    own = atomic_exchange(&shared[next(seed) % SHARED_BLOCKS], own);
    if (!own)
        return;
    look(own, next(seed) % own->size);
    *taken = *own;
    free(own);
}

static void turn(struct taken *taken, uint64_t *seed, uintptr_t pc)
{
    if (!taken->at) {
        take(taken, seed, pc + next(seed) % 8 * 2);
        look(taken, taken->size - 1);
        return;
    }
    look(taken, next(seed) % taken->size);
    switch (next(seed) % 4) {
    case 0: grow(taken, seed); break;
    case 1: hand_over(taken, seed); break;
    default: give_back(taken);
    }
}

static void *run(void *number)
{
    uint64_t seed = (uintptr_t)number * 7919;
    uintptr_t pc = (uintptr_t)number * PLACE_OF_THREAD;
    struct taken kept[KEPT] = {{0}};
    char **more = malloc((size_t)(many + 1) * sizeof *more);
    for (long i = 0; i < many; i++)
        witness_block_comes(more[i] = malloc(48), 48, pc, 1, 0);
    for (long i = 0; i < turns; i++)
        turn(&kept[next(&seed) % KEPT], &seed, pc);
    for (long i = 0; i < KEPT; i++)
        if (kept[i].at)
            give_back(&kept[i]);
    for (long i = 0; i < many; i++) {
        look(&(struct taken){more[i], 48, pc}, 47);
        witness_block_goes(more[i]);
        free(more[i]);
    }
    free(more);
    return NULL;
}

/* One whose size its word can't say. */
static void take_huge(void)
{
    struct taken taken = {malloc(HUGE), HUGE, PLACE_OF_THREAD};
    witness_block_comes(taken.at, taken.size, taken.pc, 1, 0);
    look(&taken, 0);
    look(&taken, HUGE - 1);
    give_back(&taken);
}

static bool are_empty(void)
{
    uint64_t rest = 0;
    struct line *line = atomic_load(&lines);
    for (size_t i = 0; i < LINES * (size_t)LINE_WORDS; i++)
        rest |= line[i / LINE_WORDS].words[i % LINE_WORDS];
    for (size_t i = 0; i < WIDES; i++)
        rest |= wides[i].from;
    return rest == 0;
}

int main(int count, char **words)
{
    pthread_t threads[16];
    long number = atol(words[1]);
    turns = atol(words[2]);
    many = count > 3 ? atol(words[3]) : 0;
    setenv("RECORDER_BLOCKS", "1", 1);
    if (!blocks_made())
        return 1;
    take_huge();
    for (long i = 0; i < number; i++)
        pthread_create(&threads[i], NULL, run, (void *)(i + 1));
    for (long i = 0; i < number; i++)
        pthread_join(threads[i], NULL);
    for (uint32_t i = 0; i < SHARED_BLOCKS; i++) {
        struct taken *taken = atomic_load(&shared[i]);
        if (taken)
            give_back(taken);
        free(taken);
    }
    printf("%u wrong, %s, %s\n", wrong, missed ? "some not known" : "all known", are_empty() ? "empty" : "not empty");
    return 0;
}
