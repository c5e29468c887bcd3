/*
 * Orders of libraries that are right though both ways are seen: lists of them (recorder/known/), and what they have ignored in a
 * stream.
 *
 * A line is OBJECT "HELD" "ASKED" in "FUNCTION".. : a lock that ASKED made is asked for in a call of one of the functions, while
 * one that HELD made is held; both are the object's. "HELD" alone is of two locks that one function makes. A library that has no
 * names for its functions is believed to be in the right one.
 */
#ifndef RECORD_RIGHT_ORDERS_H
#define RECORD_RIGHT_ORDERS_H

#include <stdbool.h>
#include <stddef.h>

#include "declarations.h"
#include "notes.h"
#include "types.h"

enum { RIGHT_FUNCTIONS = 8 };

struct right_order {
    const char *object; /* a pattern for the object's name, without its version */
    const char *held, *asked;
    const char *function[RIGHT_FUNCTIONS];
    size_t functions;
};

struct right_orders {
    struct right_order *order;
    size_t count, room;
    struct texts *texts;
};

/*
 * Adds what the file has, or all files of the folder whose names end in `.known`. The answer is the number of the first bad
 * line, else 0.
 */
size_t right_orders_read(struct right_orders *right, const char *path);
void right_orders_end(struct right_orders *right);

/* Where the lists of `record` stand, a text of one's own; NULL where they aren't there. `here` has its script. */
char *right_orders_folder(const char *here);

/* The requests of a stream that the lists are about, as far as it was read. */
struct right_requests;

struct right_requests *right_requests_new(const struct right_orders *right, const struct declared *declared);
void right_requests_end(struct right_requests *requests);

/* Reads further lines, all of whose types are among these. Whether there is anything new of what the lists are about. */
bool right_requests_read(struct right_requests *requests, const struct types *types, const char *at, const char *end);

/*
 * Ignores each pair of types, and each type, of which both orders were read, all in the lists' direction are right, and no
 * single locks were taken both ways. The notes have the libraries whose orders these are, in place of those before.
 */
void right_requests_ignore(const struct right_requests *requests, const struct types *types, struct notes *notes);

#endif
