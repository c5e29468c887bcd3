/*
 * Reads the file that WITNESS_ORDERS names and says how much was in it: the reader of lists by itself. What it takes
 * from the rest of the library is here.
 */
#include "../judge_verifier.h"
#include "../report_action.h"

#include <stdarg.h>
#include <stdio.h>
#include <stdlib.h>

static unsigned lines_told;

/* What is given stays. */
void *table(size_t bytes)
{
    static void *given[8];
    static unsigned count;
    return count < 8 ? given[count++] = calloc(1, bytes) : NULL;
}

void tell_line(const char *format, ...)
{
    (void)format;
    lines_told++;
}

int main(void)
{
    lists_begin();
    const struct lists *lists = lists_named();
    printf("%zu lists of %zu types, %zu pairs, %zu doubled, %u told\n", lists->lists_count, lists->types_count,
        lists->pairs_count, lists->doubled_count, lines_told);
    return is_doubled("") || is_doubled("no such");
}
