/*
 * The pairs of single locks that a recorder's file has (recorder/runtime/single_pairs.c): which threads asked for which lock while
 * they held which other, and on which way they came there. What is told of them and of threads is for the verifier, which grades
 * by it; here is what schedules are made of.
 */
#ifndef RECORD_SINGLE_H
#define RECORD_SINGLE_H

#include <stdbool.h>
#include <stddef.h>
#include <stdint.h>

#include "allocation.h"
#include "line.h"
#include "map.h"

/* A lock of a pair. Its serial number is no other lock's; its number in the trace may be one that another had before. */
struct single_lock {
    uint32_t number, serial; /* the number is 0 where it has none */
    uint32_t type; /* by the file's numbers, the first of those that are one; 0 where there was no room for it */
    bool shared;
};

/* A lock that a thread got, or let go. */
struct single_step {
    uint32_t serial, place; /* the place is 0 of one that it let go */
    bool gets, shared;
};

/* What a thread got and let go since it last had nothing (recorder/runtime/errand.h). */
struct single_errand {
    long thread;
    size_t first, steps; /* in single.step */
    bool is_cut;         /* not all of it is known */
};

/* A line of a pair: who asked, when, where, and after which errand. */
struct single_telling {
    long thread;
    uint32_t when, place;
    size_t errand; /* in single.errand */
    size_t before; /* the telling of the pair that came before, from 1 on; 0 for none */
};

/* The one lock was asked for while the other was held. */
struct single_pair {
    struct single_lock held, asked;
    enum single_how { SINGLE_PLAINLY, SINGLE_FOR_A_TIME, SINGLE_REPEATEDLY, SINGLE_AS_A_WAIT_ENDS } how;
    bool under;      /* the held one was acquired while the other was held */
    bool is_further; /* by more threads than two: of further ones there needn't be a telling */
    size_t told;     /* its last telling, from 1 on */
};

/* What a thread of a circle did: it asked for the one lock of the pair while it held the other. */
struct fact {
    const struct single_pair *pair; /* NULL where the file has none */
    long thread;                    /* as the kernel counts */
    bool is_known;                  /* the kernel gave the number to no other one */
    bool is_further;                /* it is a third one, or stands for a further one */
    bool is_at_once;                /* it did so at one time alone */
};

struct single {
    const char **type; /* their names by the file's numbers, from 1 on: those that are one have one. Texts of the notes */
    size_t types, type_room; /* one more than the highest number */
    struct single_pair *pair;
    size_t pairs, pair_room;
    struct map by_key;              /* where each pair is, from 1 on */
    struct single_telling *telling; /* in the sequence of the file */
    size_t tellings, telling_room;
    struct single_errand *errand;
    size_t errands, errand_room;
    struct single_step *step;
    size_t steps, step_room;
    const char **site; /* the places of these in the source, by the file's numbers; NULL of others */
    size_t sites;
    unsigned long lost; /* calls for which the file had no room, or what their thread holds */
    struct text told;   /* the lines of pairs and threads, as the verifier reads them */
    struct text lives;  /* those of threads alone */
};

/* Takes in a line of a pair whose locks are of those types. One that is malformed is none. */
void single_reads_pair(struct single *single, const struct line *line, uint32_t held, uint32_t asked);
/* A line of an errand. */
void single_reads_errand(struct single *single, const struct line *line);
void single_end(struct single *single);

/* The pair of these serial numbers and modes, that was asked for so; NULL where there is none. */
const struct single_pair *single_pair_like(const struct single *single, const struct single_pair *like);

/* The place in the source; NULL where it isn't known. */
const char *single_site(const struct single *single, uint32_t place);

#endif
