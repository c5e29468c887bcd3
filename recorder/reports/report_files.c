#include "report_files.h"

#include <stdio.h>
#include <stdlib.h>
#include <string.h>

#include "allocation.h"
#include "confirm.h"
#include "document.h"
#include "error_words.h"
#include "grades.h"
#include "graph.h"
#include "output_files.h"
#include "pictures.h"
#include "steering_plan.h"
#include "witness.h"

/* Whether a file is made of the JSON report. */
static bool is_report_wanted(const struct settings *settings)
{
    return is_asked(settings->html) || is_asked(settings->sarif) || is_asked(settings->json) || is_asked(settings->graph);
}

bool report_files_are_wanted(const struct settings *settings)
{
    return is_report_wanted(settings) || confirm_is_wanted(settings);
}

/* Lines that are told, each by itself. */
static void hear(void *by, long speaker, const char *text, size_t length)
{
    struct run_reports *gathered = by;
    const char *end = text + length;
    while (text < end) {
        const char *after = memchr(text, '\n', (size_t)(end - text));
        char *line = copy_bytes(text, (size_t)((after ? after : end) - text));
        run_reports_tell(gathered, speaker, line);
        free(line);
        text = after ? after + 1 : end;
    }
}

void report_files_begin(struct run *run)
{
    if (!report_files_are_wanted(&run->settings))
        return;
    run->gathered.version = WITNESS_VERSION;
    run->gathered.kit = WITNESS_KIT;
    run->gathered.words = is_asked(run->settings.words) ? run->settings.words : NULL;
    run->gathered.program = run->settings.program;
    run->gathered.directory = is_asked(run->settings.directory) ? run->settings.directory : NULL;
    run->gathered.ignore = run->settings.ignore;
    run->gathered.built = run->settings.built;
    run->gathered.alarms = run->alarms_wanted;
    run->output.hear = hear;
    run->output.by = &run->gathered;
}

/* Errors in the use of locks are reports with one place. */
static void take_errors(struct found *found)
{
    struct reports *reports = &found->reports;
    for (size_t i = 0; i < found->notes.events; i++) {
        const struct event *event = &found->notes.event[i];
        const char *text = error_text(event), *name = event->name ? event->name : "";
        if (!text)
            continue;
        char *heading = say_text(" \"%s\"", name);
        reports_add(reports, REPORT_ERROR, text);
        reports_add_line(reports, LINE_HOLDS, heading, 0, event->site ? event->site : "?:0")->name = copy(name);
        free(heading);
    }
}

void report_files_take(struct process *process)
{
    struct run *run = process->run;
    if (!report_files_are_wanted(&run->settings))
        return;
    struct found *found = run_reports_add(&run->gathered, process->name, process->recording->process);
    orders_read(process, &found->orders);
    found->has_orders = process->state.is_whole;
    if (confirm_is_wanted(&run->settings))
        plan_finds_first_locks(process);
    found->notes = process->notes;
    found->reports = process->reports;
    found->ignored = process->ignored;
    process->notes = (struct notes){0};
    process->reports = process->ignored = (struct reports){0};
    found->reports.notes = found->ignored.notes = &found->notes;
    if (!run->settings.no_errors)
        take_errors(found);
    grade_reports(&found->ignored, run->settings.grader, false);
}

/* A file that stands open, NULL where it can't be: whether it is written is said. */
static void end_file(struct run *run, FILE *to, const char *path)
{
    bool is_written = to && !ferror(to);
    if (to && fclose(to) != 0)
        is_written = false;
    if (!is_written)
        say(&run->output, "%s can't be written", path);
}

static void write_report(struct run *run, const char *report, size_t length)
{
    const char *path = run->settings.json;
    if (!is_asked(path))
        return;
    FILE *to = report ? written_file(path) : NULL;
    if (to)
        fwrite(report, 1, length, to);
    end_file(run, to, path);
}

/* What `witness FORM` makes of the report. */
static void write_document(struct run *run, const char *path, const char *form, const char *report, size_t length)
{
    const char *witness = run->settings.witness;
    if (!is_asked(path))
        return;
    FILE *to = report ? written_file(path) : NULL;
    int status = to ? document_write(to, witness, form, report, length) : 0;
    end_file(run, to, path);
    if (status != 0)
        say(&run->output, "%s isn't whole: %s %s ended with the status %d", path, witness, form, status);
}

static void draw_graphs(struct run *run, const char *report, size_t length)
{
    const struct settings *settings = &run->settings;
    char *failed = is_asked(settings->graph)
        ? graphs_draw(settings->graph, settings->witness, &run->gathered, report, length)
        : NULL;
    if (failed)
        say(&run->output, "%s: the orders aren't drawn", failed);
    free(failed);
}

void report_files_write(struct run *run)
{
    const struct settings *settings = &run->settings;
    size_t length = 0;
    if (!report_files_are_wanted(settings))
        return;
    run->output.hear = NULL;
    run->gathered.ended = time(NULL);
    run->gathered.has_failed = run->unknown;
    run_reports_gather(&run->gathered);
    char *report = is_report_wanted(settings) ? document_report(&run->gathered, &length) : NULL;
    write_document(run, settings->sarif, "sarif", report, length);
    write_report(run, report, length);
    draw_graphs(run, report, length);
    if (is_asked(settings->html)) {
        /* The pictures stand in the page alone. */
        pictures_draw(&run->gathered, settings->witness, report, length);
        free(report);
        report = document_report(&run->gathered, &length);
        write_document(run, settings->html, "html", report, length);
    }
    free(report);
    run_reports_end(&run->gathered);
}
