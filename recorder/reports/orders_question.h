/*
 * Files of orders, given to `witness orders`, which alone reads them.
 */
#ifndef RECORD_ORDERS_QUESTION_H
#define RECORD_ORDERS_QUESTION_H

#include "verdict.h"

/* Some lines that are given, of one file. */
struct orders_part {
    char *path;
    unsigned long before; /* lines that were given before them */
};

struct orders_question {
    const char *witness;
    struct verdict verdict;
    FILE *answer;
    char *told; /* what it answers, once it has ended */
    size_t length;
    char bytes[1 << 16]; /* the last lines, which go together */
    size_t gathered;
    unsigned long lines; /* that were given */
    struct orders_part *part;
    size_t parts, room;
    bool is_cut;     /* a file ended within a line: nothing is given after that */
    char *wrong;     /* why a file can't be read; NULL where all could be */
    int status;      /* the program's */
    bool has_failed; /* there is no answer, and no file is to blame */
};

/* Begins `witness orders WORD`, with a number after it unless that is NULL. */
void question_begin(struct orders_question *question, const char *witness, const char *word, const char *number);

/* Gives a file, and how often each of its orders was met where FILE.runs stands beside it. */
void question_file(struct orders_question *question, const char *path);

/* Gives a line without its newline. */
void question_line(struct orders_question *question, const char *line);

/* Waits for the answer. Why there is none, as a text of one's own; NULL where there is. */
char *question_answer(struct orders_question *question);

void question_end(struct orders_question *question);

#endif
