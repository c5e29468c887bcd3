#include "equal_reports.h"

#include <stdio.h>
#include <stdlib.h>
#include <string.h>

#include "allocation.h"

/* So many processes are named. */
enum { NAMED_MOST = 8 };

struct told {
    char *text;  /* without threads and callers */
    char *about; /* what is said of it at the end */
    long process;
    long *other; /* processes that have it, too */
    size_t others, room;
};

static struct told *told_before(struct run *run, const char *text)
{
    for (size_t i = 0; i < run->tolds; i++)
        if (strcmp(run->told[i].text, text) == 0)
            return &run->told[i];
    return NULL;
}

static bool has(const struct told *told, long process)
{
    for (size_t i = 0; i < told->others; i++)
        if (told->other[i] == process)
            return true;
    return false;
}

bool equal_was_told(struct run *run, const struct report *report, long process)
{
    /* Where each process has a log of its own, each log is whole. */
    if (report->kind == REPORT_OTHER || output_is_parted(&run->output))
        return false;
    char *text = report_lines(report);
    struct told *told = told_before(run, text);
    if (!told) {
        ADD(run->told, run->tolds, run->told_room) = (struct told){text, report_about(report), process, NULL, 0, 0};
        return false;
    }
    free(text);
    if (told->process == process)
        return false;
    if (!has(told, process))
        ADD(told->other, told->others, told->room) = process;
    return true;
}

static void tell_others(struct run *run, const struct told *told)
{
    char *text = NULL;
    size_t length = 0;
    FILE *to = open_memstream(&text, &length);
    if (!to)
        return;
    for (size_t i = 0; i < told->others && i < NAMED_MOST; i++)
        fprintf(to, "%s%ld", i == 0 ? "" : ", ", told->other[i]);
    if (told->others > NAMED_MOST)
        fprintf(to, " and %zu others", told->others - NAMED_MOST);
    fclose(to);
    say(&run->output, "the report of %s of process %ld is one of %zu more: %s", told->about, told->process,
        told->others, text);
    free(text);
}

void tell_equal(struct run *run)
{
    for (size_t i = 0; i < run->tolds; i++)
        if (run->told[i].others > 0)
            tell_others(run, &run->told[i]);
}

void equal_end(struct run *run)
{
    for (size_t i = 0; i < run->tolds; i++) {
        free(run->told[i].text);
        free(run->told[i].about);
        free(run->told[i].other);
    }
    free(run->told);
}
