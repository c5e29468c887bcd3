/*
 * What `witness findings` tells of a process's lines. In a run of many processes most are alike: it isn't asked again about
 * lines that it was asked about before. About others one program is asked, which judges one process after another, as long as
 * there are few lines of each.
 */
#ifndef RECORD_REPLAY_ANSWERS_H
#define RECORD_REPLAY_ANSWERS_H

#include <stdbool.h>
#include <stddef.h>

#include "verifier_process.h"

/* What it told of some lines. */
struct answer {
    struct text lines, told;
    int status;
};

/* A new struct is all zeroes. */
struct answers {
    struct answer *answer;
    size_t count, room;
    size_t bytes;           /* how long all are together */
    struct verifier shared; /* the one for many processes, which had so many */
    unsigned processes;
    bool is_one_by_one; /* none can be run, or judge one after another */
};

/* No verifier goes on. What was told is kept, and another one is begun where it is wanted. */
void answers_stop(struct answers *answers);

void answers_end(struct answers *answers);

/* Lines that come, as long as they are few; more of them go to the verifier as they come. */
struct replaying {
    struct answers *answers;
    const char *witness;
    bool shares; /* the verifier that others are asked about is asked */
    struct text lines;
    struct verifier own;
    struct text told; /* at its end: the caller's */
};

/* Of one process alone the verifier is asked by itself. */
void replaying_begin(struct replaying *replaying, struct answers *answers, const char *witness, bool shares);
void replaying_takes(struct replaying *replaying, const char *bytes, size_t length);

/* All have come. 0 where the verifier has told all; else its status, as a shell says it. */
int replaying_end(struct replaying *replaying, const struct grades_wanted *wanted);

#endif
