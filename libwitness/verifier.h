/*
 * The proved verifier for programs in C and C++: the calls of crates/wit_c, which its static library exports. Each call
 * (but wit_asserted) is given the place in which the caller holds a verifier, and answers a number:
 *
 *   from 0         what the call was answered (below)
 *   -1 to -36      the fault by which it was refused: -6 is F6 of docs/RULES.md. Nothing has changed
 *   below -99      WIT_EMPTY, WIT_FULL or WIT_NO_SUCH. Nothing has changed
 *
 * Wrong numbers of seats, locks, files, classes and levels are answered so, and never undefined. What a call does is said
 * by the method that it is named after, in crates/wit_core/src, and proved (docs/PROOFS.md, "The verifier in C").
 *
 * What the caller owes, since nothing can check it:
 * - A place is all zeroes, or as a call left it. It isn't copied while it holds a verifier, and nothing but these calls
 *   writes it.
 * - One call at a time is given a place, and a lock or the like puts the calls in sequence; each may be another thread's.
 *   `full` is false while a call runs, so nobody reads it then.
 * - Pointers are aligned and lead to what their type says; a pointer with a length leads to as much as the length says,
 *   and isn't NULL even where the length is 0. Buffers overlap neither each other nor the place. No `bool` is other than
 *   0 or 1.
 * - No handler of signals makes a call where it may have interrupted a call, or a function of the heap. Nor does a child of
 *   a fork, where another thread may have been in one as the process forked. (libwitness forks under the mutex that each of
 *   its calls has, and judges no call of a handler while its thread is in one.)
 * - The heap is three functions, below, of the program's own or of the kit's liblibc_c.a (malloc and its like).
 */
#ifndef WITNESS_VERIFIER_H
#define WITNESS_VERIFIER_H

#include <stdbool.h>
#include <stddef.h>
#include <stdint.h>

#ifdef __cplusplus
extern "C" {
#endif

/* A place for a verifier: `struct wit_place place = { 0 };` is an empty one. */
struct wit_place {
    bool full;
    void *at;
};

/* For how much a verifier has room, and the most there is. */
struct wit_sizes {
    uint32_t seats;  /* 256 */
    uint32_t types;  /* 1,023 */
    uint32_t locks;  /* 65,536 that are ever made */
    uint32_t chunks; /* 65,536, of five held locks each */
    uint32_t log;    /* 16,777,216 entries */
};

enum {
    /* check, note_try, define_order and their like */
    WIT_PASS = 0,
    WIT_DONE = 1,
    WIT_ADOPTED = 2,
    WIT_SILENT = 3,
    WIT_REVERSAL = 4,  /* reported */
    WIT_DUPLICATE = 5, /* reported */
    WIT_RECORDED = 6,
    WIT_EXHAUSTED = 7, /* reported */
    WIT_UNRECORDED = 8,
    WIT_UNLOCKED = 9,
    WIT_KNOWN = 10,
    WIT_IGNORED = 11,

    /* whatever the call */
    WIT_OUT_OF_MEMORY = -27,
    WIT_EMPTY = -100,  /* the place has no verifier */
    WIT_FULL = -101,   /* it has one already */
    WIT_NO_SUCH = -102 /* a size, a class or a level that there isn't */
};

/* What an assertion comes to. */
enum {
    WIT_HOLDS = 0,
    WIT_SKIPPED = 1,
    WIT_INVALID = 2,
    WIT_IS_LOCKED = 3,
    WIT_IS_NOT_LOCKED = 4,
    WIT_IS_NOT_EXCLUSIVE = 5,
    WIT_IS_EXCLUSIVE = 6,
    WIT_IS_NOT_RECURSED = 7,
    WIT_IS_RECURSED = 8
};

enum { WIT_SLEEP_MUTEX = 0, WIT_SPIN_MUTEX = 1, WIT_RW = 2, WIT_SX = 3 }; /* classes */
enum { WIT_WATCH_OFF = -1, WIT_WATCH_QUIET = 0, WIT_WATCH_ON = 1 };       /* levels */
/* Bits that have no name here are ignored, but in an assertion, which is WIT_INVALID with them. */
enum { WIT_LOCK_RECURSABLE = 1, WIT_LOCK_DUPOK = 2 };                /* flags of a lock */
enum { WIT_OP_NEWORDER = 1, WIT_OP_DUPOK = 2, WIT_OP_FRESH = 4 };    /* of a request */
enum { WIT_LA_UNLOCKED = 1, WIT_LA_LOCKED = 2, WIT_LA_SLOCKED = 4 }; /* of an assertion */
enum { WIT_LA_XLOCKED = 8, WIT_LA_RECURSED = 16, WIT_LA_NOTRECURSED = 32 };
enum { WIT_WARN_GIANTOK = 1, WIT_WARN_SLEEPOK = 2 }; /* of a warning */

/* A type of a static list, and such a list: its types are acquired in that sequence. */
struct wit_listed {
    uint8_t class_number;
    const char *name;
    size_t length;
};
struct wit_list {
    const struct wit_listed *types;
    size_t count;
};

/* Two types that may be acquired in either order. */
struct wit_pair {
    const char *first;
    size_t first_length;
    const char *second;
    size_t second_length;
};

/*
 * A verifier begins in a place that is empty: 0. With ALL_HELD a request is compared with all locks of its kind that its
 * seat holds, and else with the last one. Where a list is refused, its number (from 1) goes to REFUSED, and else 0.
 */
int64_t wit_new(struct wit_place *place, const struct wit_sizes *sizes, bool all_held, const struct wit_list *lists,
    size_t lists_count, const struct wit_pair *blessed, size_t blessed_count, uint64_t *refused);

/* What is in the place is given back, and the place is empty. */
void wit_free(struct wit_place *place);

/* The number of a source file, from 1; one that was named before keeps its own. */
int64_t wit_file(struct wit_place *place, const char *name, size_t length);

/* A lock is made: its number, from 1. No byte of a type's name stands for the lock's own name. */
int64_t wit_init(struct wit_place *place, uint16_t seat, const char *name, size_t length, const char *type_name,
    size_t type_length, uint8_t class_number, uint8_t flags);

/* A lock is no more: WIT_DONE. Its type and orders stay. */
int64_t wit_destroy(struct wit_place *place, uint16_t seat, uint32_t lock);

/* A seat asks for a lock: WIT_PASS to WIT_DUPLICATE. Its request is pending until it is noted or given up. */
int64_t wit_check(struct wit_place *place, uint16_t seat, uint32_t lock, bool exclusive, uint8_t ops, uint16_t file,
    uint32_t line);

/* The seat has it: WIT_RECORDED, WIT_EXHAUSTED or WIT_UNRECORDED. It takes no memory, and so do the next two. */
int64_t wit_note(struct wit_place *place, uint16_t seat, uint32_t lock);

/* It doesn't: WIT_DONE. */
int64_t wit_give_up(struct wit_place *place, uint16_t seat, uint32_t lock);

/* The seat lets a lock go, as one held so: WIT_UNLOCKED or WIT_IGNORED. */
int64_t wit_unlock(struct wit_place *place, uint16_t seat, uint32_t lock, bool exclusive);

/* The seat has a lock for which it didn't wait: as wit_note. */
int64_t wit_note_try(struct wit_place *place, uint16_t seat, uint32_t lock, bool exclusive, uint16_t file, uint32_t line);

/* What it holds shared it holds exclusively, and the other way round: WIT_DONE or WIT_IGNORED. */
int64_t wit_upgrade(struct wit_place *place, uint16_t seat, uint32_t lock);
int64_t wit_downgrade(struct wit_place *place, uint16_t seat, uint32_t lock);

/* It must not let a lock go; it may again: WIT_DONE or WIT_IGNORED. */
int64_t wit_norelease(struct wit_place *place, uint16_t seat, uint32_t lock);
int64_t wit_releaseok(struct wit_place *place, uint16_t seat, uint32_t lock);

/* The first lock's type is before the second one's: WIT_ADOPTED, WIT_KNOWN or WIT_IGNORED. */
int64_t wit_define_order(struct wit_place *place, uint16_t seat, uint32_t first, uint32_t second);

/* So much is watched from now on: WIT_DONE. WIT_WATCH_OFF is for good. */
int64_t wit_set_watch(struct wit_place *place, uint16_t seat, int32_t level);

/* What a seat's assertion comes to: WIT_HOLDS to WIT_IS_RECURSED. */
int64_t wit_assert(struct wit_place *place, uint16_t seat, uint32_t lock, uint8_t flags);

/*
 * What it comes to where everything is watched and the seat holds the lock so, having acquired it again COUNT times; or
 * where it doesn't hold it, and the next two are passed over. That is for a caller who knows it by himself: no verifier is
 * asked, and the call may be made at any time.
 */
int64_t wit_asserted(bool held, bool exclusive, uint16_t count, uint8_t flags);

/* How many locks a seat holds where it should hold none but NAMED (0 names none), or such as the flags allow. */
int64_t wit_warn(struct wit_place *place, uint16_t seat, uint32_t named, uint8_t flags);

/*
 * How much was reported; how much is watched, of which WIT_WATCH_OFF is no fault; the type of a lock, from 1, or 0; how many
 * chunks no seat has.
 */
int64_t wit_reports(struct wit_place *place);
int64_t wit_watch(struct wit_place *place);
int64_t wit_type_of(struct wit_place *place, uint32_t lock);
int64_t wit_free_chunks(struct wit_place *place);

/*
 * Texts, into a buffer of this many bytes. The whole text's length is answered, and as much of it as there is room for
 * stands at the buffer's front, with no NUL after it; the rest of the buffer stays. WIT_OUT_OF_MEMORY may be answered in
 * place of a text. The verifier isn't changed.
 *
 * wit_report_text is the report of the last call, and empty where nothing was reported, or before the first call. That is
 * the last one of wit_init to wit_set_watch that was answered a reply or a fault. Neither wit_file nor wit_assert, wit_warn
 * and whatever only tells something is such a call; nor is one that is answered WIT_NO_SUCH.
 *
 * wit_assert_text is what wit_assert would answer, empty where that holds; wit_warn_text the locks that wit_warn would
 * count; wit_locks_text those of one seat; wit_circle_text seats that wait for one another in a circle, or "no circle".
 */
int64_t wit_report_text(struct wit_place *place, char *to, size_t room);
int64_t wit_assert_text(struct wit_place *place, uint16_t seat, uint32_t lock, uint8_t flags, char *to, size_t room);
int64_t wit_warn_text(struct wit_place *place, uint16_t seat, uint32_t named, uint8_t flags, char *to, size_t room);
int64_t wit_locks_text(struct wit_place *place, uint16_t seat, char *to, size_t room);
int64_t wit_all_locks_text(struct wit_place *place, char *to, size_t room);
int64_t wit_graph_text(struct wit_place *place, char *to, size_t room);
int64_t wit_circle_text(struct wit_place *place, char *to, size_t room);

/*
 * Lists of numbers, into a buffer of so many, in the same way: the seats of a circle, from the least one, where 0 says that
 * no seats wait so; the types on the path of adopted orders from one to another, where 0 says that none leads there.
 */
int64_t wit_circle(struct wit_place *place, uint16_t *to, size_t room);
int64_t wit_path(struct wit_place *place, uint16_t from, uint16_t goal, uint16_t *to, size_t room);

/* A lock, and where it was acquired or is asked for. All zeroes where there is none. */
struct wit_lock_at {
    uint32_t lock;
    uint32_t type_number;
    uint32_t class_number;
    uint32_t file;
    uint32_t line;
};

enum { WIT_ORDER = 0, WIT_SLEEPABLE = 1, WIT_GIANT = 2 }; /* which rule a reversal breaks */

struct wit_report {
    uint32_t heading; /* of a reversal; else 0 */
    uint32_t seat;    /* who made the call */
    struct wit_lock_at held;
    struct wit_lock_at asked;
    struct wit_lock_at third; /* an older held lock of the type that is asked for, where there is one */
};

enum { WIT_LISTED = 1, WIT_DEFINED = 2, WIT_REQUESTED = 3 }; /* where an order comes from */

/* Two types, the first of which is before the second one. */
struct wit_order {
    uint32_t first;
    uint32_t second;
    uint32_t origin;
    uint32_t file; /* of the request, else 0 */
    uint32_t line;
};

struct wit_held {
    struct wit_lock_at at;
    uint32_t exclusive; /* 1, or 0 of one that is held shared */
    uint32_t count;     /* how often it was acquired again */
};

/*
 * What the texts tell, as numbers. The verifier isn't changed.
 *
 * wit_report is the report of the last call (of which see wit_report_text): WIT_REVERSAL, WIT_DUPLICATE or WIT_EXHAUSTED,
 * and 0 where nothing was reported, or before the first call. TO is all zeroes then, and so are the locks of WIT_EXHAUSTED.
 * It takes no memory.
 *
 * wit_report_path is the established order that a reversal goes against, step by step, from the type of ASKED to that of
 * HELD; wit_held is what a seat holds, in the sequence of wit_locks_text. They are lists, into a buffer of so many, in the
 * same way as those above: 0 says that no path leads there or no reversal was reported, and that the seat holds nothing or
 * there is no such seat.
 */
int64_t wit_report(struct wit_place *place, struct wit_report *to);
int64_t wit_report_path(struct wit_place *place, struct wit_order *to, size_t room);
int64_t wit_held(struct wit_place *place, uint16_t seat, struct wit_held *to, size_t room);

/* Names, as texts above, but for WIT_OUT_OF_MEMORY: they take none. A number that was never given has the empty name. */
int64_t wit_lock_name(struct wit_place *place, uint32_t lock, char *to, size_t room);
int64_t wit_type_name(struct wit_place *place, uint16_t type_number, char *to, size_t room);
int64_t wit_file_name(struct wit_place *place, uint16_t file, char *to, size_t room);

/*
 * The heap. `rattle_alloc` gives memory that is aligned to 16; `rattle_realloc` keeps what was there, up to the less of both
 * sizes. A size of 0 counts as ALIGN, which is 1 to 16. Where they refuse, `ok` is 0, `at` is any pointer but NULL, and
 * nothing has changed. They return: none leaves by longjmp, by an exception or with its thread. They don't call wit_* with
 * the place that they are called for. Calls with several places may be several threads' at once, and so may theirs.
 */
struct rattle_memory {
    uint64_t ok;
    void *at;
};
struct rattle_memory rattle_alloc(size_t size, size_t align);
struct rattle_memory rattle_realloc(void *at, size_t old_size, size_t size, size_t align);
void rattle_dealloc(void *at);

#ifdef __cplusplus
}
#endif

#endif
