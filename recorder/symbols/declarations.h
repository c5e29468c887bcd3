/*
 * What a stream declares of objects, places, stacks and types, and how much there is of all. It is read as the stream grows.
 */
#ifndef RECORD_DECLARATIONS_H
#define RECORD_DECLARATIONS_H

#include <stdbool.h>
#include <stddef.h>
#include <stdint.h>

#include "line.h"
#include "stream_file.h"
#include "symbols.h"

/* Numbers of a stream are below these, or they are none: a recorder writes less by far. */
enum {
    SEAT_MOST = 1 << 12,
    OBJECT_MOST = 1 << 17,
    PLACE_MOST = 1 << 20,
    STACK_MOST = 1 << 18,
    TYPE_MOST = 1 << 16,
    LOCK_MOST = 1 << 20,
};

struct object {
    const char *path;   /* NULL of one that isn't declared */
    const char *called; /* NULL where it is told by its file's name */
    bool is_blind;      /* stacks end in it */
    struct binary *binary;
};

/*
 * A call in an object; or two places: the first is in a library, and where it says nothing the second counts; or one by
 * name, of which the program has told its file, its line and maybe its function.
 */
struct place {
    enum place_kind { PLACE_NONE, PLACE_CALL, PLACE_PAIR, PLACE_SITE } kind;
    uint32_t object, library, rest;
    uint64_t offset, within; /* in the object, and in the function */
    const char *function;    /* NULL where it has no name */
    const struct code *site; /* of a place by name, in place of what symbols know: one frame */
};

struct stack {
    const uint32_t *place; /* innermost first */
    size_t count;
};

/* Where a lock stands in an object. */
struct variable {
    uint32_t object;
    uint64_t offset, within; /* in the object, and in the variable */
    const char *name;        /* NULL where it has none */
    const char *file;        /* NULL where no other file has one of that name */
};

struct type {
    bool has_variable;
    bool is_met; /* no call has made its locks: its places are those of a first use */
    struct variable variable;
    const char *given; /* the name that the program gives it; NULL of most types */
    const char *label; /* that, as it is told: without its column where no other label has another one */
    uint32_t column; /* in the line at the label's end, also where the label goes without it; 0 where it isn't known */
    const char *class; /* of its first lock; NULL where there is none */
    bool is_in_pairs;  /* a pair of single locks is told with it */
    const uint32_t *place;
    size_t count;
    bool has_offset; /* its locks stand at that offset in their blocks of memory */
    uint64_t offset;
    const uint32_t *use; /* of one that no call has made the places of a first use; those above take its blocks */
    size_t uses;
};

struct seats;

struct declared {
    struct object *object;
    struct place *place; /* in the sequence of the stream, whose numbers are any */
    size_t placed, placed_room;
    uint32_t *place_at; /* by numbers: where each is there, from 1 on; 0 where it is none */
    struct stack *stack;
    struct type *type;
    size_t objects, places, stacks, types; /* one more than the highest number */
    size_t object_room, place_room, stack_room, type_room;
    uint32_t *call; /* places that are calls, and that columns.h hasn't looked at */
    size_t calls, call_room;
    size_t deepest; /* the most places that name a type */
    size_t locks;
    unsigned long lines, pending;
    uint32_t seats;
    unsigned long held; /* the most locks of one seat at once */
    bool is_odd;        /* a number in it can't be one */
    bool lacks_pairs;   /* of single locks: there was no room for further ones */
    bool has_news;      /* of types, since that was last set to false */
    size_t crowded;     /* lines `crowded` */
    struct symbols *symbols;
    struct texts *texts;   /* what it declares */
    struct texts *derived; /* what is made of that meanwhile */
    struct columns *columns;
    struct seats *standing; /* what seats hold and ask for where the reading is */
};

void declared_begin(struct declared *declared, struct symbols *symbols);
/* Reads further lines. Tells how far it is where `progress` says so. */
void declared_read(struct declared *declared, const char *at, const char *end, bool progress);
void declared_end(struct declared *declared);

/* The type becomes the one that it would be if nothing were known of its blocks. */
void leave_offset_out(struct type *type);
/* OBJECT OFFSET NAME WITHIN FILE, from that field on. False where the line has none. */
bool read_variable(const struct declared *declared, const struct line *line, unsigned field, struct variable *variable);
/* What the object is called; an empty name of none. */
const char *object_name(const struct declared *declared, uint32_t object);
/* What the variable is called, as a name of a trace may be. */
const char *variable_name(const struct declared *declared, const struct variable *variable);

/* Those of that number; of a number that has none, one with nothing in it. */
const struct object *object_of(const struct declared *declared, uint32_t number);
const struct place *place_of(const struct declared *declared, uint32_t number);

#endif
