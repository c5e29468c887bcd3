#include "progress.h"

#include <stdio.h>

enum { STEP = 1 << 18 };

void progress_read(unsigned long lines)
{
    if (lines % STEP == 0)
        fprintf(stderr, "\rrecord: %lu lines read ", lines);
}

/* The last one is wiped away. */
void progress_resolved(unsigned long lines, unsigned long all)
{
    if (lines % STEP != 0)
        return;
    fprintf(stderr, "\rrecord: %lu %% of %lu lines resolved ", 100 * lines / all, all);
    if (lines + STEP >= all)
        fprintf(stderr, "\r%60s\r", "");
}
