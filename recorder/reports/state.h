/*
 * What the verifier knows of a process, as it was told last.
 */
#ifndef RECORD_STATE_H
#define RECORD_STATE_H

#include <stdbool.h>
#include <stddef.h>

/* So many seats the verifier has room for. */
enum { SEATS_MOST = 256 };

/* An order that was adopted: its types, and where it was first asked for. */
struct known_order {
    char *from, *into;
    size_t spot;
};

struct holding {
    unsigned lock;
    bool shared;
    size_t spot; /* where it was asked for, or tried: a number of the notes */
};

struct seat {
    struct holding *held; /* oldest first */
    size_t count, room;
    unsigned asked; /* the lock that it waits for; 0 where it waits for none */
    bool asked_shared;
    size_t asked_at;
};

/* A new struct is all zeroes. */
struct state {
    bool lacks_orders; /* they aren't wanted */
    bool is_whole;     /* all was told */
    bool is_clean;     /* and nothing is to be feared of what was read */
    size_t bads;       /* lines that can't be */
    struct known_order *order;
    size_t orders, order_room;
    struct seat seat[SEATS_MOST + 1]; /* by their numbers */
    unsigned *circle;                 /* each of these seats waits for the next one, and the last for the first */
    size_t circles, circle_room;
};

/* What seats hold and ask for is told anew. */
void state_forgets_seats(struct state *state);

void state_end(struct state *state);

#endif
