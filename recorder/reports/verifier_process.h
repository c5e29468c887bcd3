/*
 * `witness findings`, run and asked: it is told lines, tells what it knows by then, and grades what it has reported.
 */
#ifndef RECORD_VERIFIER_PROCESS_H
#define RECORD_VERIFIER_PROCESS_H

#include <stdbool.h>
#include <stddef.h>
#include <stdio.h>

#include "grades.h"
#include "verdict.h"

/* A new struct is all zeroes. */
struct verifier {
    struct verdict verdict;
    bool is_begun;
    FILE *to;
    char *told; /* since it was heard anew */
    size_t length;
    size_t single; /* so many bytes of what is told of single locks it has */
};

/* What it tells from here on is a text that begins anew. It is begun, if it wasn't. */
void verifier_hears(struct verifier *verifier, const char *witness);

/* Asks what it knows now, and waits until its text tells all of that. False where it ends before. */
bool verifier_looks(struct verifier *verifier);

/*
 * After a look: asks for the grades of reports that it told, in that text, and waits for them. It has ended where they take too
 * long.
 */
void verifier_grades(struct verifier *verifier, const struct grades_wanted *wanted, const char *told, size_t length);

/* Whether it can be told more. */
bool verifier_goes_on(const struct verifier *verifier);

/* Nothing more is wanted of it. */
void verifier_leaves(struct verifier *verifier);

#endif
