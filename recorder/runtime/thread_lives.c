/*
 * When threads began, who made them, and when they were joined: by that some pairs of single locks are known never to meet
 * (single_pairs.c).
 */
#include "quick.h"

/* Threads whose end is told of, if they are joined. */
enum { LIVES = 256 };

static struct life {
    pthread_t handle;
    uint32_t thread;  /* 0 where it isn't taken */
    uint32_t number;  /* among all that there ever were */
    uint32_t made_at; /* UINT32_MAX where that isn't known */
} lives[LIVES];
static _Atomic uint32_t lives_kept, lives_begun;

/* The child's streams have none of them yet. */
void lives_forked(void)
{
    for (uint32_t i = 0; i < LIVES; i++)
        lives[i].thread = 0;
    atomic_store(&lives_kept, 0);
    atomic_store(&lives_begun, 0);
    self.has_pairs = false;
    self.birth.maker = self.birth.grand = 0;
}

static void write_life(uint32_t thread, uint32_t maker, uint32_t made_at)
{
    if (stream_has_room())
        write_line(WORD_LIFE " %u %u %u", thread, maker, made_at);
}

/* Before the first pair of a thread: its line, and its maker's, which may have no order of its own. */
void life_begins(struct thread *thread)
{
    if (thread->has_pairs)
        return;
    const struct birth *birth = &thread->birth;
    thread->has_pairs = true;
    write_life((uint32_t)gettid(), birth->maker, birth->at);
    if (birth->grand != 0)
        write_life(birth->maker, birth->grand, birth->maker_at);
    for (uint32_t i = 0; i < LIVES; i++) {
        if (lives[i].thread == 0) {
            lives[i] = (struct life){pthread_self(), (uint32_t)gettid(), atomic_fetch_add(&lives_begun, 1),
                birth->maker ? birth->at : UINT32_MAX};
            atomic_fetch_add(&lives_kept, 1);
            return;
        }
    }
}

struct joining order_joins(pthread_t thread)
{
    /* In this sequence: what is made while nobody makes a thread has a greater number. */
    uint32_t made = atomic_load(&threads_made_and_joined);
    return (struct joining){thread, atomic_load(&threads_in_making) == 0 ? made : 0, atomic_load(&lives_begun)};
}

/*
 * Whether it is the thread that was joined. As soon as that one is, a new thread may have its handle. The life of a new one
 * had not begun before the join. If the other's hadn't either, it is known by when it was made.
 */
static bool is_joined(const struct life *begun, const struct joining *joining)
{
    return begun->thread != 0 && pthread_equal(begun->handle, joining->thread)
        && (begun->number < joining->begun || begun->made_at < joining->made);
}

struct joined {
    struct joining joining;
    uint32_t at;
};

static void end_lives(void *argument)
{
    const struct joined *it = argument;
    ENTERS_OR return;
    for (uint32_t i = 0; i < LIVES; i++) {
        if (!is_joined(&lives[i], &it->joining))
            continue;
        if (stream_has_room())
            write_line(WORD_JOINED " %u %u %u", lives[i].thread, (uint32_t)gettid(), it->at);
        lives[i].thread = 0;
        atomic_fetch_sub(&lives_kept, 1);
    }
}

void order_of_joined(struct joining joining)
{
    struct joined it = {joining, atomic_fetch_add(&threads_made_and_joined, 1)};
    if (LIKELY(atomic_load(&lives_kept) == 0))
        return;
    GOES_INSIDE_OR(HERE) return;
    aside(end_lives, &it);
}
