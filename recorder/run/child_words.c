#include "child_words.h"

#include <stdbool.h>
#include <stdio.h>

static bool are_wanted;

void child_words_wanted(void)
{
    are_wanted = true;
}

void child_words(const char *preload, const char *const *words)
{
    if (!are_wanted)
        return;
    fputs("record: runs", stderr);
    if (preload)
        fprintf(stderr, " LD_PRELOAD=%s", preload);
    for (; *words; words++)
        fprintf(stderr, " %s", *words);
    putc('\n', stderr);
}
