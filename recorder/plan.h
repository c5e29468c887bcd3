/*
 * The plan of a steered run: a file that `record` writes and each process of the run maps. It says at which places threads
 * are to pause (steer.c), and counts what came of that. Who writes it and who reads it are built of these sources together.
 */
#ifndef RECORDER_PLAN_H
#define RECORDER_PLAN_H

#include <stdatomic.h>
#include <stdint.h>

enum { PLAN_ORDERS = 8, PLAN_FRAMES = 4, PLAN_NAME_ROOM = 112 };
#define PLAN_MARK 0x316e616c70727477u

/*
 * A call: the base name of its object and the offset there, as a `place` line has it; of a place by name the source file
 * and the line. An empty name is no call.
 */
struct plan_code {
    uint64_t offset;
    uint32_t is_named;
    char name[PLAN_NAME_ROOM];
};

/* A place; of one that stands for two the library's function, and the rest. */
struct plan_frame {
    struct plan_code code, rest;
};

/* A place and its callers, innermost first; of 0 frames it isn't known. */
struct plan_chain {
    uint32_t frames;
    struct plan_frame frame[PLAN_FRAMES];
};

/* How often threads came to a chain, and the thread that did, as the kernel counts. */
struct plan_met {
    _Atomic uint32_t times;
    _Atomic int32_t thread;
};
enum { PLAN_SEVERAL_THREADS = -1 };

/*
 * An order of the report: where its first lock is taken, and where its second one is asked for. A lock that is a variable is
 * known by where it stands in its object; of an empty name any lock counts.
 */
struct plan_order {
    struct plan_chain hold, ask;
    struct plan_code hold_lock, ask_lock;
    uint32_t holds_back; /* a thread waits before the first lock, too */
    struct plan_met asked;
};

struct plan {
    uint64_t mark;
    uint32_t orders;
    uint32_t pause_ms, back_ms; /* the longest pause before a second lock, and before a first one */
    uint32_t noise_ms;          /* the longest before any second lock, at random; 0 for none */
    struct plan_order order[PLAN_ORDERS];
    _Atomic uint32_t met; /* threads stood at the places crosswise so often */
    /*
     * Who looks on from outside can see that all threads of a process sleep: in waits without a time limit, or on a word of
     * these addresses, where they pause. Then he writes how many pauses had begun before he looked.
     */
    _Atomic uint32_t processes; /* that have mapped the plan */
    _Atomic int32_t process;    /* the last one of them */
    uint64_t words_from, words_to;
    _Atomic uint32_t begun;     /* pauses that have begun */
    _Atomic uint32_t all_sleep; /* 0 where that wasn't seen */
};

#endif
