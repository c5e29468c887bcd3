/* What the library tells of locks, line by line (lock_lines.c). All calls are under the mutex. */
#ifndef WITNESS_LOCK_LINES_H
#define WITNESS_LOCK_LINES_H

#include "recorder.h"
#include "verifier.h"

/* Lines that are put together. Those for which there is no room are counted alone: so it is known how much they need. */
struct lines {
    char *to;    /* ended by a zero, where there is room */
    size_t room; /* with that zero */
    size_t length;
};

void put_words(struct lines *lines, const char *format, ...) __attribute__((format(printf, 2, 3)));

/* The report of the verifier's last call. False without memory for the path. */
bool put_report(struct lines *lines, struct wit_place *verifier);

/* Where that is: `in FUNCTION+0xWITHIN (OBJECT)`, or `@ FILE:LINE` of a place by name. */
void put_place(struct lines *lines, uint32_t place);

/* What a seat holds by the verifier, newest first, below `seat N.. holds:` with MORE of it; nothing where it holds none. */
void put_seat(struct lines *lines, struct wit_place *verifier, uint16_t seat, const char *more);
/* What the thread itself holds, newest first, whether the verifier was told or not. */
void put_thread(struct lines *lines, const struct thread *thread);

/* What an assertion came to that failed (WIT_INVALID to WIT_IS_RECURSED), of a lock that the name is of. */
void put_assertion(struct lines *lines, const char *name, int64_t answer);

#endif
