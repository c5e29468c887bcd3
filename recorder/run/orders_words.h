/*
 * `orders learn` and `orders known`, which run a program as `record --learn` and `--known` do. They have options for what only those
 * need who keep the orders of many runs:
 *
 *     orders learn|known [--run-name NAME] [--program-name NAME] [--new-exitcode N] FILE [OPTIONS OF RECORD] [--] PROGRAM ..
 */
#ifndef RECORD_ORDERS_WORDS_H
#define RECORD_ORDERS_WORDS_H

#include <stdbool.h>
#include <stddef.h>

/* Whether these words of `orders` run a program. */
bool orders_run_a_program(char **words);

/* The words of `record` for them, which last to the end. Of the first so many nothing is told. */
struct orders_words {
    char **word;
    size_t untold;
};

struct orders_words orders_words(char **words);

#endif
