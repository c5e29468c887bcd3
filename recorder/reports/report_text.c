#include "report_text.h"

#include <stdlib.h>

#include "allocation.h"
#include "place_words.h"
#include "thread_label.h"

/* Whether a line before this one has told of the thread. */
static bool is_named(const struct report *report, size_t before, long thread)
{
    for (size_t i = 0; i < before; i++) {
        const struct report_line *line = &report->line[i];
        if (line->thread == thread && (line->kind == LINE_LOCK || line->kind == LINE_STEP))
            return true;
    }
    return false;
}

/* The thread of a place; where the report names it first, with its name and who made it, further on with its name. */
static void write_thread(FILE *to, const struct report *report, size_t number)
{
    const struct report_line *line = &report->line[number];
    if (!line->known)
        return;
    char *label = is_named(report, number, line->thread) ? thread_name(line->known) : thread_label(line->known);
    fprintf(to, ", thread %ld%s", line->thread, label);
    free(label);
}

static void write_frame(FILE *to, const struct frame *frame)
{
    struct code_words code;
    bool has_function = frame->function && !code_words_read(&code, frame->site);
    char *place = place_name(frame->site);
    fprintf(to, has_function ? "  %s (%s)\n" : "  %s%s\n", has_function ? frame->function : "", place);
    free(place);
}

/* A place's heading and its frames. The lines of a circle have their threads themselves. */
static void write_place(FILE *to, const struct report *report, size_t number)
{
    const struct report_line *line = &report->line[number];
    size_t frames = line->frames ? line->frames->count : 0;
    fputs(line->heading, to);
    if (line->kind == LINE_LOCK || line->kind == LINE_STEP)
        write_thread(to, report, number);
    fputs(frames > 0 ? ":\n" : "\n", to);
    for (size_t i = 0; i < frames; i++)
        write_frame(to, &line->frames->frame[i]);
}

static void write_callers(FILE *to, const struct report *report)
{
    bool any = false;
    for (size_t i = 0; i < report->lines; i++) {
        if (!report->line[i].is_spot)
            continue;
        if (!any)
            fputs("callers:\n", to);
        any = true;
        write_place(to, report, i);
    }
}

void report_write(FILE *to, const struct report *report, bool with_callers, bool with_ignore_line)
{
    for (size_t i = 0; i < report->lines; i++)
        fprintf(to, "%s\n", report->line[i].text);
    if (with_callers)
        write_callers(to, report);
    if (with_ignore_line && report->ignore_line)
        fprintf(to, "%s\n", report->ignore_line);
}
