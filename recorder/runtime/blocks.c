/*
 * The blocks of memory that the program has taken by malloc and its kin, where `record --blocks` asks for them. The calls
 * are interposed by an object of its own (malloc/hooks.c): without it nothing of this runs.
 *
 * A lock in a block is told by its offset there. So the block is to be found by an address within. A table has a line of
 * words for each piece of memory of 128 bytes, and a word for each block that begins there. Pieces that are neighbours have
 * lines that are neighbours. A block of at most 4 kB is looked for backwards, line by line; a wider one stands in a second
 * table, too. A line that is full loses a block that it had before.
 *
 * A thread that takes a block or gives it back changes a word or two by atomic instructions. It waits for nobody but where
 * it comes by callers that are new. A handler of signals may come in between. Of a block that is in use nothing changes, so
 * what is found of it is right; that a block was lost is counted, and then its locks have the types that they have without
 * the tables.
 */
#include "recorder.h"

#include <errno.h>
#include <string.h>

/* A word: the callers that took the block, its size in units of 16 bytes, and of its address what the line doesn't say. */
enum { ORIGIN_BITS = 15, UNITS_BITS = 24, UNIT_SHIFT = 4, PIECE_SHIFT = 7, LINE_BITS = 19, ADDRESS_BITS = 47 };
enum { UNITS_AT = ORIGIN_BITS, TAG_AT = UNITS_AT + UNITS_BITS, UNITS_MOST = (1 << UNITS_BITS) - 1 };
enum { LINES = 1 << LINE_BITS, LINE_WORDS = 4, SPREAD = 0x9e40 };
/* Smaller blocks have no room for a mutex, and aren't kept. Blocks up to NEAR bytes are looked for line by line. */
enum { LEAST = 32, NEAR = 4096 };

struct line {
    _Atomic uint64_t words[LINE_WORDS]; /* 0 where there is none */
};

/*
 * The wide blocks. One of up to WIDE_LEAST << 2 * N bytes is of level N, and stands where the level's piece of memory, of
 * that size, has its slots in which it begins.
 */
enum { WIDE_LEAST_SHIFT = 14, LEVELS = 17, WIDES = 1 << 14, WIDE_TRIES = 8 };

struct wide {
    _Atomic uintptr_t from; /* 0 where there is none, 1 while it is filled */
    _Atomic size_t size;
};

/* The callers of malloc, by which a block is told. */
enum { ORIGINS = 1 << ORIGIN_BITS };

struct origin {
    _Atomic bool is_there; /* set last */
    uint32_t places[DEPTH_MOST];
};

static struct line *_Atomic lines; /* NULL where blocks aren't asked for */
static struct wide *wides;
static struct origin *origins;
static uint32_t origins_met;
static _Atomic uint32_t levels_met;
static _Atomic bool any_came, any_lost;

bool blocks_made(void)
{
    if (!getenv("RECORDER_BLOCKS"))
        return true;
    struct line *made = table(LINES * sizeof *made);
    wides = table(WIDES * sizeof *wides);
    origins = table(ORIGINS * sizeof *origins);
    if (!made || !wides || !origins)
        return false;
    atomic_store_explicit(&lines, made, memory_order_release);
    return true;
}

static inline bool are_kept(void)
{
    return atomic_load_explicit(&lines, memory_order_acquire) != NULL;
}

static inline struct line *line_of(uintptr_t address)
{
    uintptr_t piece = address >> PIECE_SHIFT;
    return &atomic_load_explicit(&lines, memory_order_relaxed)[(piece ^ (piece >> LINE_BITS) * SPREAD) % LINES];
}

static inline uint64_t tag_of(uintptr_t address)
{
    uint64_t within = address >> UNIT_SHIFT & ((1 << (PIECE_SHIFT - UNIT_SHIFT)) - 1);
    return (address >> (PIECE_SHIFT + LINE_BITS)) << (PIECE_SHIFT - UNIT_SHIFT) | within;
}

static inline size_t units_of(uint64_t word)
{
    return word >> UNITS_AT & UNITS_MOST;
}

static inline uint32_t origin_in(uint64_t word)
{
    return (uint32_t)word & (ORIGINS - 1);
}

static inline bool is_wide(uint64_t word)
{
    return units_of(word) > NEAR >> UNIT_SHIFT;
}

static inline bool has_tag(uint64_t word, uint64_t tag)
{
    return word != 0 && word >> TAG_AT == tag;
}

static uint64_t word_of(uintptr_t from, size_t size, uint32_t origin)
{
    size_t units = (size + (1 << UNIT_SHIFT) - 1) >> UNIT_SHIFT;
    return tag_of(from) << TAG_AT | (uint64_t)(units < UNITS_MOST ? units : UNITS_MOST) << UNITS_AT | origin;
}

static inline uint64_t read_word(_Atomic uint64_t *word)
{
    return atomic_load_explicit(word, memory_order_relaxed);
}

/* The word of the block that begins there, NULL where there is none; *found is what it was. */
static inline _Atomic uint64_t *word_at(uintptr_t from, uint64_t *found)
{
    struct line *line = line_of(from);
    uint64_t tag = tag_of(from);
    for (uint32_t i = 0; i < LINE_WORDS; i++) {
        *found = read_word(&line->words[i]);
        if (has_tag(*found, tag))
            return &line->words[i];
    }
    return NULL;
}

static inline uint32_t wide_shift(uint32_t level)
{
    return WIDE_LEAST_SHIFT + 2 * level;
}

static uint32_t level_of(size_t size)
{
    uint32_t level = 0;
    while (level + 1 < LEVELS && size > (size_t)1 << wide_shift(level))
        level++;
    return level;
}

static struct wide *wide_slot(uint32_t level, uintptr_t piece, uint32_t try)
{
    return &wides[(((piece << 5 | level) * 0x9e3779b97f4a7c15u >> 50) + try) % WIDES];
}

static bool put_wide(uintptr_t from, size_t size)
{
    uint32_t level = level_of(size);
    atomic_fetch_or(&levels_met, 1u << level);
    for (uint32_t try = 0; try < WIDE_TRIES; try++) {
        struct wide *wide = wide_slot(level, from >> wide_shift(level), try);
        uintptr_t nobody = 0;
        if (atomic_load_explicit(&wide->from, memory_order_relaxed) == 0
            && atomic_compare_exchange_strong(&wide->from, &nobody, 1)) {
            atomic_store_explicit(&wide->size, size, memory_order_relaxed);
            atomic_store_explicit(&wide->from, from, memory_order_release);
            return true;
        }
    }
    return false;
}

/*
 * The wide block that the address is in, which may begin in the piece before its own, or the one that BEGINS there; NULL for
 * none. It isn't known of which level it is: its size may be greater than its word can say.
 */
static struct wide *find_wide(uintptr_t address, bool begins, uintptr_t *from, uint64_t *word)
{
    uint32_t met = atomic_load(&levels_met), pieces = begins ? 1 : 2;
    for (uint32_t i = 0; i < LEVELS * pieces * WIDE_TRIES; i++) {
        uint32_t level = i / (pieces * WIDE_TRIES), back = i / WIDE_TRIES % pieces;
        if (!(met >> level & 1))
            continue;
        struct wide *wide = wide_slot(level, (address >> wide_shift(level)) - back, i % WIDE_TRIES);
        *from = atomic_load_explicit(&wide->from, memory_order_acquire);
        size_t size = atomic_load_explicit(&wide->size, memory_order_acquire);
        if (begins ? *from == address
                   : *from > 1 && address >= *from && address - *from < size && atomic_load(&wide->from) == *from
                    && word_at(*from, word))
            return wide;
    }
    return NULL;
}

static size_t take_wide(uintptr_t from)
{
    struct wide *wide = find_wide(from, true, &from, NULL);
    size_t size = wide ? atomic_load_explicit(&wide->size, memory_order_relaxed) : 0;
    if (wide)
        atomic_store_explicit(&wide->from, 0, memory_order_release);
    return size;
}

/*
 * Puts the word where there is room, or in the place of one that isn't wide. What begins there still was given back by other
 * ways than free.
 */
static bool keep_word(uintptr_t from, uint64_t word)
{
    static _Atomic uint32_t turn;
    struct line *line = line_of(from);
    for (uint32_t tries = 0; tries < 2 * LINE_WORDS; tries++) {
        uint32_t at = LINE_WORDS;
        uint64_t before = 0;
        for (uint32_t i = 0; i < LINE_WORDS; i++) {
            uint64_t found = read_word(&line->words[i]);
            if (has_tag(found, word >> TAG_AT)) {
                if (is_wide(found))
                    take_wide(from);
                atomic_store_explicit(&line->words[i], word, memory_order_relaxed);
                return true;
            }
            at = found == 0 && at == LINE_WORDS ? i : at;
        }
        if (UNLIKELY(at == LINE_WORDS)) {
            at = atomic_fetch_add_explicit(&turn, 1, memory_order_relaxed) % LINE_WORDS;
            before = read_word(&line->words[at]);
            atomic_store_explicit(&any_lost, true, memory_order_relaxed);
        }
        if (!is_wide(before) && LIKELY(atomic_compare_exchange_strong(&line->words[at], &before, word)))
            return true;
    }
    return false;
}

/* A block that was taken out of the tables. */
struct block {
    uintptr_t from;
    size_t size; /* 0 where it wasn't there */
    uint32_t origin;
};

static struct block take_out(uintptr_t from)
{
    uint64_t word;
    _Atomic uint64_t *at = word_at(from, &word);
    if (!at || !atomic_compare_exchange_strong(at, &word, 0))
        return (struct block){0};
    size_t wide = UNLIKELY(is_wide(word)) ? take_wide(from) : 0;
    return (struct block){from, wide ? wide : units_of(word) << UNIT_SHIFT, origin_in(word)};
}

static inline void put_in(struct block block)
{
    if (block.size < LEAST || block.from >> ADDRESS_BITS != 0 || (block.from & ((1 << UNIT_SHIFT) - 1)) != 0)
        return;
    uint64_t word = word_of(block.from, block.size, block.origin);
    if (keep_word(block.from, word) && (!is_wide(word) || put_wide(block.from, block.size)))
        return;
    atomic_store(&any_lost, true);
    take_out(block.from);
}

static uint32_t origin_slot(const uint32_t takers[DEPTH_MOST])
{
    uint64_t hash = 0;
    for (uint32_t i = 0; i < depth; i++)
        hash = (hash ^ takers[i]) * 0x9e3779b97f4a7c15u;
    return (uint32_t)(hash >> 40) % ORIGINS;
}

/* By words of four bytes, as they were just written: wider ones would have to wait for that. */
static inline bool are_equal(const uint32_t one[DEPTH_MOST], const uint32_t other[DEPTH_MOST])
{
    for (uint32_t i = 0; i < depth; i++)
        if (one[i] != other[i])
            return false;
    return true;
}

/* The number of the callers, 0 where they weren't met. */
static inline uint32_t origin_known(const uint32_t takers[DEPTH_MOST])
{
    for (uint32_t slot = origin_slot(takers);; slot = (slot + 1) % ORIGINS) {
        if (!atomic_load_explicit(&origins[slot].is_there, memory_order_acquire))
            return 0;
        if (slot != 0 && are_equal(origins[slot].places, takers))
            return slot;
    }
}

/* Slot 0 is nobody's, and never free. Under the mutex. */
static uint32_t origin_met(const uint32_t takers[DEPTH_MOST])
{
    uint32_t number = origin_known(takers);
    if (number || origins_met >= ORIGINS / 4 * 3)
        return number;
    atomic_store(&origins[0].is_there, true);
    uint32_t slot = origin_slot(takers);
    while (atomic_load(&origins[slot].is_there))
        slot = (slot + 1) % ORIGINS;
    memcpy(origins[slot].places, takers, sizeof origins[slot].places);
    atomic_store_explicit(&origins[slot].is_there, true, memory_order_release);
    origins_met++;
    return slot;
}

struct taking {
    struct caller caller;
    uint32_t origin;
};

/* Of callers that are new, or that have to be asked for anew. */
static void look_for_origin(void *argument)
{
    struct taking *taking = argument;
    uint32_t takers[DEPTH_MOST] = {0};
    if (!takers_unwound(taking->caller, depth, takers))
        return;
    ENTERS_OR return;
    taking->origin = origin_met(takers);
}

/*
 * Where the thread is inside the recorder already, a new one isn't looked for. This is the call by which it goes inside: the
 * one that the program made is of another object.
 */
static COLD uint32_t new_origin(uintptr_t pc, uintptr_t stack, uintptr_t base)
{
    struct taking taking = {{pc, stack, base}, 0};
    int before = errno;
    GOES_INSIDE_OR(HERE) return 0;
    aside(look_for_origin, &taking);
    errno = before;
    return taking.origin;
}

static inline uint32_t origin_of(uintptr_t pc, uintptr_t stack, uintptr_t base)
{
    uint32_t takers[DEPTH_MOST] = {0};
    uint32_t origin = takers_known(pc, stack, base, depth, takers) ? origin_known(takers) : 0;
    return LIKELY(origin != 0) ? origin : new_origin(pc, stack, base);
}

/* The program has taken a block. What says where its call comes from stays in registers. */
EXPORT void witness_block_comes(void *from, size_t size, uintptr_t pc, uintptr_t stack, uintptr_t base)
{
    if (UNLIKELY(!are_kept())) {
        start();
        if (!are_kept())
            return;
    }
    if (!atomic_load_explicit(&any_came, memory_order_relaxed))
        atomic_store_explicit(&any_came, true, memory_order_relaxed);
    if (size >= LEAST)
        put_in((struct block){(uintptr_t)from, size, origin_of(pc, stack, base)});
}

/* It is about to give it back. */
EXPORT void witness_block_goes(void *from)
{
    if (LIKELY(are_kept()))
        take_out((uintptr_t)from);
}

/* It lets the block grow or shrink, by that function: it keeps its callers, and its locks where it stays there. */
EXPORT void *witness_block_moves(void *from, size_t size, uintptr_t pc, uintptr_t stack, uintptr_t base,
    void *(*move)(void *, size_t))
{
    if (!are_kept() || !from) {
        void *taken = move(from, size);
        if (taken)
            witness_block_comes(taken, size, pc, stack, base);
        return taken;
    }
    struct block block = take_out((uintptr_t)from);
    uint32_t youngest = lock_youngest();
    void *moved = move(from, size);
    if (!moved) {
        if (size != 0)
            put_in(block);
        return NULL;
    }
    if (moved != from && block.size != 0)
        locks_left(block.from, block.from + block.size, youngest);
    if (size >= LEAST)
        put_in((struct block){(uintptr_t)moved, size, block.origin ? block.origin : origin_of(pc, stack, base)});
    return moved;
}

/* The block of at most NEAR bytes that the address is in: its word, 0 for none. */
static uint64_t find_near(uintptr_t address, uintptr_t *from)
{
    uintptr_t piece = address >> PIECE_SHIFT, last = piece < NEAR >> PIECE_SHIFT ? 0 : piece - (NEAR >> PIECE_SHIFT);
    for (; piece >= last && piece > 0; piece--) {
        struct line *line = line_of(piece << PIECE_SHIFT);
        for (uint32_t i = 0; i < LINE_WORDS; i++) {
            uint64_t word = read_word(&line->words[i]), tag = word >> TAG_AT;
            uintptr_t within = tag & ((1 << (PIECE_SHIFT - UNIT_SHIFT)) - 1);
            *from = piece << PIECE_SHIFT | within << UNIT_SHIFT;
            if (word != 0 && tag_of(*from) == tag && address >= *from && address - *from < units_of(word) << UNIT_SHIFT)
                return word;
        }
    }
    return 0;
}

bool block_around(uintptr_t address, uint64_t *offset, uint32_t takers[DEPTH_MOST])
{
    uintptr_t from;
    uint64_t word;
    if (!are_kept() || address >> ADDRESS_BITS != 0)
        return false;
    if (!(word = find_near(address, &from)) && !find_wide(address, false, &from, &word)) {
        if (atomic_load(&any_lost) || !atomic_load(&any_came))
            count_missed(MISSED_BLOCKS);
        return false;
    }
    *offset = address - from;
    memset(takers, 0, DEPTH_MOST * sizeof *takers);
    if (origin_in(word) != 0)
        memcpy(takers, origins[origin_in(word)].places, DEPTH_MOST * sizeof *takers);
    return true;
}
