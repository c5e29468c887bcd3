#include "replay.h"

#include <stdlib.h>
#include <string.h>

#include "allocation.h"
#include "finding_lines.h"
#include "follow.h"
#include "live_verdict.h"
#include "output_files.h"
#include "replay_answers.h"
#include "report_files.h"

enum { BUFFER_BYTES = 1 << 16, BAD_LINES = 3, PATIENCE = 30000, BRIEF_PATIENCE = 2000 };

static ssize_t feed(void *cookie, const char *bytes, size_t length)
{
    replaying_takes(cookie, bytes, length);
    return (ssize_t)length;
}

/* Why nothing is told of the report. */
static enum ignored_cause cause_of(const struct report *report, const struct ignored_types *ignored)
{
    if ((report->kind != REPORT_REVERSAL && report->kind != REPORT_DUPLICATE) || report->first == 0)
        return NOT_IGNORED;
    return why_ignored(ignored, report->line[report->first].type, report->line[report->last].type);
}

/* Parts what isn't to be told from the rest. The verifier knows nothing of that: it would know the same of the locks. */
static void part_ignored(struct process *process)
{
    struct reports *reports = &process->reports, *ignored = &process->ignored;
    size_t count = reports->count;
    ignored->notes = reports->notes;
    reports->count = 0;
    for (size_t i = 0; i < count; i++) {
        struct report report = reports->report[i];
        report.ignored = cause_of(&report, &process->notes.ignored);
        if (report.ignored == NOT_IGNORED)
            reports->report[reports->count++] = report;
        else
            ADD(ignored->report, ignored->count, ignored->room) = report;
    }
}

/* A trial, or what stands for one. It wants all lines before it tells anything. */
static bool is_trial(const struct settings *settings, const char *witness)
{
    return witness != settings->grader;
}

/* The grades that are asked for, in the end or while others wait. */
static struct grades_wanted grades_of(const struct process *process, const struct notes *notes, bool in_the_end)
{
    return (struct grades_wanted){notes, report_files_are_wanted(&process->run->settings),
        in_the_end ? PATIENCE : BRIEF_PATIENCE};
}

/* Has all of the stream judged at once. What the verifier told, a text of one's own. */
static char *ask(struct process *process, const char *witness, size_t *length)
{
    struct run *run = process->run;
    struct replaying replaying;
    struct resolving *resolving = resolving_new(run->resolver, &process->stream);
    struct grades_wanted wanted = grades_of(process, resolving_notes(resolving), !process->is_followed);
    if (is_trial(&run->settings, witness))
        wanted.patience = 0;
    replaying_begin(&replaying, &run->answers, witness, run->recordings > 1);
    FILE *to = fopencookie(&replaying, "w", (cookie_io_functions_t){.write = feed});
    if (to) {
        setvbuf(to, NULL, _IOFBF, BUFFER_BYTES);
        process->resolved = resolving_goes_on(resolving, &process->stream, to) == RESOLVED;
        process->resolved &= fclose(to) == 0;
    }
    process->status = replaying_end(&replaying, &wanted);
    process->notes = resolving_leaves_notes(resolving);
    *length = replaying.told.length;
    return replaying.told.bytes;
}

/* The stream with all of its lines, where it has the last ones alone. */
static bool has_whole_stream(struct process *process)
{
    if (process->stream.before == 0)
        return true;
    char *path = copy(process->stream.path);
    stream_close(&process->stream);
    bool is_open = stream_open(&process->stream, path, process->is_followed);
    free(path);
    return is_open;
}

/* Has the verifier that goes on read what is new of the stream. False where it can't. */
static bool reads_on(struct process *process, struct live_verdict *going)
{
    struct run *run = process->run;
    enum resolved resolved = going_reads(going, run->resolver, run->settings.witness, &process->stream);
    if (resolved == RESOLVED_ANEW && has_whole_stream(process))
        resolved = going_reads(going, run->resolver, run->settings.witness, &process->stream);
    process->resolved = resolved == RESOLVED;
    return resolved != RESOLVED_ANEW;
}

/* In the end the notes are the process's own. */
static void take_notes(struct process *process, struct live_verdict *going)
{
    if (process->is_followed) {
        process->notes = *resolving_notes(going->resolving);
        process->has_lent_notes = true;
    } else {
        process->notes = resolving_leaves_notes(going->resolving);
        going->resolving = NULL;
        going_leaves(going);
    }
}

/* Asks the verifier that goes on; where it can't, another one. */
static char *ask_going(struct process *process, struct live_verdict *going, size_t *length)
{
    bool ends = !process->is_followed || process->is_last_look;
    char *told = NULL;
    if (reads_on(process, going)) {
        bool wants_orders = report_files_are_wanted(&process->run->settings);
        struct grades_wanted wanted = grades_of(process, resolving_notes(going->resolving), ends);
        told = ends ? going_ends(going, wanted, length) : going_looks(going, wanted, wants_orders, length);
    }
    if (told) {
        take_notes(process, going);
        return told;
    }
    going_leaves(going);
    return has_whole_stream(process) ? ask(process, process->run->settings.witness, length) : NULL;
}

/* Beside a trial, what was built of earlier sources is asked for the grades, where that is there. */
static void ask_grader(struct process *process)
{
    const struct settings *settings = &process->run->settings;
    struct process again = *process;
    size_t length = 0;
    if (!settings->grader || !is_trial(settings, settings->witness))
        return;
    char *told = ask(&again, settings->grader, &length),
         *from = told ? memmem(told, length, FINDING("grade"), sizeof FINDING("grade") - 1) : NULL;
    if (from)
        finding_lines_read(&process->reports, &process->state, from, length - (size_t)(from - told));
    notes_end(&again.notes);
    free(told);
}

void replay(struct process *process)
{
    size_t length = 0;
    struct live_verdict *going = follow_verdict(process->run, process);
    char *told = going ? ask_going(process, going, &length) : ask(process, process->run->settings.witness, &length);
    process->reports.notes = &process->notes;
    process->state.lacks_orders = process->is_followed || !report_files_are_wanted(&process->run->settings);
    if (told)
        finding_lines_read(&process->reports, &process->state, told, length);
    ask_grader(process);
    free(told);
    if (process->state.bads > 0)
        process->status = BAD_LINES;
    part_ignored(process);
}

bool trace_is_written(const struct process *process, const char *path)
{
    FILE *to = written_file(path);
    if (!to)
        return false;
    bool is_good = resolve_trace(process->run->resolver, &process->stream, to);
    return fclose(to) == 0 && is_good;
}
