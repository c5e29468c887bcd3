/*
 * Which requests are written to the stream: the calls of crates/wit_condensed_c, which its static library exports. They are
 * proved (docs/PROOFS.md, "What a recorder keeps"). They take no memory, wait for nothing, and answer whatever numbers they
 * are given.
 *
 * A request by a thread that holds locks is written, after all that the thread holds, unless each of its pairs of types
 * (held, asked) was written before. What was written is kept as two sets of pairs:
 *
 *   told     a request for a lock of the one type was written while a lock of the other was held
 *   alone    one was written while that lock alone was held
 *
 * A thread that holds one lock looks in `alone`, one that holds more in `told`. So a request is written some more times than
 * it must be. It is for what comes after a first report: a request under several locks of which one is reversed adopts
 * nothing.
 *
 * What the recorder owes, since nothing can check it:
 * - The links are what the thread holds, oldest first. A link is `written` while the stream has it among what the thread
 *   holds.
 * - Each request of a thread that holds something goes to wit_condensed_ask before the real call, unless each of its bits is
 *   set. Its links and its types are those of the stream: a number stands for one lock and one type as long as the stream
 *   goes.
 * - The lines are written in the sequence given, after all that was written before and before anything else of this thread,
 *   and one mutex is held from the question to the last of them. They are to be had before (wit_condensed_lines): so they stand
 *   when the sets come to have the pairs. Nothing but these calls writes the sets. Others may read their words.
 */
#ifndef RECORDER_CONDENSED_H
#define RECORDER_CONDENSED_H

#include <stdbool.h>
#include <stddef.h>
#include <stdint.h>

enum { WIT_TYPES = 1024, WIT_WORDS = WIT_TYPES / 64, WIT_MOST_LINKS = 512 };

/* The sets: a row for each type that is asked for, with a bit for each type held. One of all zeroes is empty. */
struct wit_condensed {
    uint64_t told[WIT_TYPES][WIT_WORDS];
    uint64_t alone[WIT_TYPES][WIT_WORDS];
};

/* Whether a row has the bit of a type, below WIT_TYPES. Other threads may be setting bits of it. */
static inline bool wit_has_bit(const uint64_t row[WIT_WORDS], uint16_t held)
{
    return __atomic_load_n(&row[held / 64], __ATOMIC_RELAXED) >> held % 64 & 1;
}

/* A lock that a thread holds, its type, whether the thread got it by a try, and whether the stream has it. */
struct wit_link {
    uint32_t lock;
    uint16_t type;
    bool tried;
    bool written;
};

enum {
    WIT_LINE_ASKED_AND_GOT = 0, /* the thread asked for that link, and got it */
    WIT_LINE_TRIED = 1,         /* it got that link by a try */
    WIT_LINE_ASKS = 2           /* it asks: the request itself, the last line. Its `link` is the number of links */
};

/* A line: which link it is of, from 0, and what it says. */
struct wit_line {
    uint32_t link;
    uint8_t kind;
};

/*
 * The lines by which a request for this lock is to be written, where the thread holds these links: how many they are. There
 * are none where each pair was written before, nor where the lock is among the links, unless the request WAITS for long.
 * Each link that isn't `written` has one, oldest first. From then on the sets have the request's pairs, unless the lock is
 * among the links.
 *
 * There are none either, and nothing changes, where a type isn't below WIT_TYPES, where there are more than WIT_MOST_LINKS
 * links, and where ROOM isn't greater than COUNT. The buffers don't overlap. Neither pointer is NULL, even where the count
 * is 0.
 */
size_t wit_condensed_ask(struct wit_condensed *sets, const struct wit_link *links, size_t count, uint32_t lock,
    uint16_t type, bool waits, struct wit_line *lines, size_t room);

/* The lines that wit_condensed_ask gives for the same question. Nothing changes. */
size_t wit_condensed_lines(const struct wit_condensed *sets, const struct wit_link *links, size_t count, uint32_t lock,
    uint16_t type, bool waits, struct wit_line *lines, size_t room);

/* Another stream begins, in which nothing is written yet: both sets are empty. */
void wit_condensed_forked(struct wit_condensed *sets);

#endif
