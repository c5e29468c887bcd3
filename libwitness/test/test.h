/* What the tests of the verifier for C share. */
#ifndef WITNESS_TEST_H
#define WITNESS_TEST_H

#include "../verifier.h"

extern unsigned passed, failed;

/* Counts whether an answer is the wanted one, and tells where it isn't. */
void is_number(const char *file, int line, int64_t answer, int64_t want);
void is_text(const char *file, int line, int64_t length, const char *text, const char *want);

#define IS(want, answer) is_number(__FILE__, __LINE__, (answer), (want))
#define HOLDS(what) is_number(__FILE__, __LINE__, !!(what), 1)

/* TEXT(want, wit_report_text(&place, to, room)): the text goes to `to`, which has this much `room`. */
#define TEXT(want, call)                                              \
    do {                                                              \
        char to[4096];                                                \
        size_t room = sizeof to;                                      \
        int64_t length = (call);                                      \
        is_text(__FILE__, __LINE__, length, to, (want));              \
    } while (0)

/*
 * The heap (heap.c): how many blocks and bytes are out, the most bytes that were since this was set, whether growths are
 * counted, how many were, and which one of them is refused, from 1.
 */
extern long blocks_out, bytes_out, most_bytes, growths, refused_growth;
extern bool growths_count;

/* The most bytes that a verifier of these sizes begins with: four bits for each two types, five held locks a chunk. */
long room_of(const struct wit_sizes *sizes);

/* A small verifier: seats 2, types 8, locks 16, chunks 4. */
int64_t begin(struct wit_place *place);

/* As a line of a trace: a mutex or a lock of another class, a check without FRESH and its note, a release. */
int64_t mutex(struct wit_place *place, const char *name, const char *type_name);
int64_t lock_of(struct wit_place *place, uint8_t class_number, const char *name, uint8_t flags);
int64_t check(struct wit_place *place, uint16_t seat, uint32_t lock, bool exclusive, uint32_t line);
int64_t take(struct wit_place *place, uint16_t seat, uint32_t lock, uint32_t line);
int64_t release(struct wit_place *place, uint16_t seat, uint32_t lock);

void try_orders(void);    /* orders.c */
void try_seats(void);     /* seats.c */
void try_told(void);      /* told.c */
void try_refusals(void);  /* refusals.c */
void try_growths(void);   /* growths.c */

#endif
