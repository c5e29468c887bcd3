#include "tell_process.h"

#include <stdio.h>
#include <stdlib.h>
#include <string.h>

#include "allocation.h"
#include "circle.h"
#include "equal_reports.h"
#include "error_words.h"
#include "follow.h"
#include "grades.h"
#include "learn.h"
#include "legality.h"
#include "missed_calls.h"
#include "output_files.h"
#include "place_words.h"
#include "replay.h"
#include "report_files.h"
#include "report_text.h"
#include "thread_locks.h"
#include "version.h"

enum { REPLAYED_MOST = 1, NOT_RUN = 126, NOT_FOUND = 127 };

static bool is_replayed(const struct process *process)
{
    return process->resolved && process->status <= REPLAYED_MOST && process->state.is_whole;
}

/* Why it isn't known what the process did. The recording is kept then, with its trace where that is there. */
static void tell_failure(struct process *process)
{
    struct run *run = process->run;
    if (!process->resolved)
        say(&run->output, "%s: nothing is known of it: its recording can't be read to its end", process->name);
    else if (process->status == NOT_RUN || process->status == NOT_FOUND)
        say(&run->output, "%s: nothing is known of it: %s can't be run", process->name, run->settings.witness);
    else
        say(&run->output, "%s: its recording isn't accepted, by status %d:", process->name, process->status);
    keep_recording(run);
    run->unknown = true;
    char *path = say_text("%s/%s.trace", run->records, process->recording->name);
    if (!trace_is_written(process, path))
        say(&run->output, "%s: %s can't be written: only the recorder's file is kept", process->name, path);
    free(path);
}

static void keep_name(struct process *process, const char *type)
{
    const struct alias *alias = type ? notes_alias(&process->notes, type) : NULL;
    if (alias)
        resolver_keeps(process->run->resolver, &process->stream, alias);
}

/* The report was told while the program ran, with that said of its single locks: it is told by these names at the end, too. */
static void keep_told(struct process *process, const struct report *report, char *alarm)
{
    follow_keeps(process->run, process->recording->name, report_lines(report), alarm);
    for (size_t i = 0; i < report->lines; i++) {
        keep_name(process, report->line[i].type);
        keep_name(process, report->line[i].other);
    }
}

/* While the program runs, a deadlock may have to be seen meanwhile. */
static void grade(struct process *process)
{
    grade_reports(&process->reports, process->run->settings.grader, process->is_followed);
}

/* The report, with what is to stand below it. */
static void write_report(struct process *process, const struct report *report, FILE *to)
{
    struct run *run = process->run;
    report_write(to, report, run->settings.frames > 1, run->settings.ignore_lines);
    grade(process);
    char *text = alarm_text(&report->alarm), *schedule = schedule_line(report->schedule);
    if (run->settings.frames > 1 && *text)
        fprintf(to, "%s\n", text);
    if (run->settings.frames > 1 && *schedule)
        fprintf(to, "%s\n", schedule);
    free(schedule);
    if (process->is_followed)
        keep_told(process, report, text);
    else
        free(text);
}

/* Of a report that was told while the program ran, what wasn't known then of its single locks. */
static void tell_alarm(struct process *process, const struct report *report, const char *before)
{
    struct run *run = process->run;
    grade(process);
    char *text = alarm_text(&report->alarm), *about = report_about(report), *schedule = schedule_line(report->schedule);
    bool is_new = *before && strcmp(before, text) != 0 && run->settings.frames > 1;
    if (is_new)
        say(&run->output, "by now, of %s: %s", about, text);
    if (is_new && *schedule)
        say(&run->output, "by now, of %s: %s", about, schedule);
    free(schedule);
    free(about);
    free(text);
}

/* Whether the report was told while the program ran. At the end it is said what has come to be known of it. */
static bool was_told(struct process *process, const struct report *report)
{
    char *lines = report_lines(report);
    const char *before = follow_alarm(process->run, process->recording->name, lines);
    free(lines);
    if (before && !process->is_followed)
        tell_alarm(process, report, before);
    return before != NULL;
}

/* How many of the reports count for the status. */
static unsigned long alarms_counted(struct process *process)
{
    unsigned long count = 0;
    grade(process);
    for (size_t i = 0; i < process->reports.count; i++) {
        const struct report *report = &process->reports.report[i];
        count += (report->kind == REPORT_REVERSAL || report->kind == REPORT_DUPLICATE)
            && alarm_counts(&process->run->alarms_wanted, &report->alarm);
    }
    return count;
}

/* A report that wasn't told; whether another process has told it, it says nothing new. */
static void write_if_new(struct process *process, const struct report *report, FILE *to)
{
    struct run *run = process->run;
    if (was_told(process, report))
        return;
    if (!equal_was_told(run, report, process->recording->process))
        write_report(process, report, to);
    else if (process->is_followed)
        keep_told(process, report, copy(""));
}

/* So many of the process's reports, but for those that were told. */
static void tell_those(struct process *process, size_t count)
{
    struct run *run = process->run;
    char *text = NULL;
    size_t length = 0;
    FILE *lines = count > 0 ? open_memstream(&text, &length) : NULL;
    if (!lines)
        return;
    for (size_t i = 0; i < count; i++)
        write_if_new(process, &process->reports.report[i], lines);
    fclose(lines);
    if (length > 0 && run->output.several && (!process->resolved || is_replayed(process))) {
        char *heading = say_text("record: %s:\n", process->name);
        tell_report(&run->output, heading, strlen(heading));
        free(heading);
    }
    tell_report(&run->output, text, length);
    free(text);
}

/* The reports that weren't told while the program ran. */
static void tell_reports(struct process *process)
{
    struct run *run = process->run;
    const struct reports *reports = &process->reports;
    if (reports->count == 0)
        return;
    run->reported = true;
    run->reports += reports_counted(reports);
    run->circles += reports_circles(reports);
    run->alarms += alarms_counted(process);
    tell_those(process, reports->count);
}

void tell_new_reports(struct process *process)
{
    size_t count = 0;
    while (count < process->reports.count
        && (process->reports.report[count].kind == REPORT_REVERSAL
            || process->reports.report[count].kind == REPORT_DUPLICATE))
        count++;
    if (!is_replayed(process) || count == 0)
        return;
    run_has_word(process->run, process->recording->process);
    tell_those(process, count);
}

/* Which premise of a clean recording the process doesn't meet: the first one of the first process. */
static void look_for_premises(struct process *process)
{
    struct run *run = process->run;
    unsigned long releases, rereads;
    const struct state *state = &process->state;
    const char *answer = !state->is_whole ? "it wasn't looked at"
        : state->is_clean                 ? NULL
                                          : "what was reported is ignored";
    if (!stream_count(&process->stream, "releases", &releases) || releases > 0)
        answer = "a lock was released by a thread that didn't hold it";
    else if (!stream_count(&process->stream, "rereads", &rereads) || rereads > 0)
        answer = "a thread read a lock again that it read, and a writer may come in between";
    if (process->notes.has_shared && run->status.loads > 1)
        answer = "locks that processes share are judged in each process by itself";
    if (answer && !run->unclean)
        run->unclean = say_text("%s: %s", process->name, answer);
}

static void tell_waits(struct process *process)
{
    struct run *run = process->run;
    unsigned long again;
    if (!stream_count(&process->stream, "again", &again) || again == 0)
        return;
    run->reported = true;
    for (size_t i = 0; i < process->notes.events; i++)
        if (process->notes.event[i].kind == EVENT_AGAIN)
            return;
    run->circles++;
    say(&run->output, "%s: a thread waited for a lock that it held itself: %lu of them", process->name, again);
}

static void tell_releases(struct process *process)
{
    struct run *run = process->run;
    unsigned long releases;
    if (!stream_count(&process->stream, "releases", &releases) || releases == 0)
        return;
    if (releases == 1)
        say(&run->output, "%s: 1 release by a thread that did not hold the lock:", process->name);
    else
        say(&run->output, "%s: %lu releases by threads that did not hold the lock:", process->name, releases);
    for (size_t i = 0; i < process->notes.events; i++) {
        const struct event *event = &process->notes.event[i];
        if (event->kind != EVENT_FOREIGN)
            continue;
        char *place = place_told(event->site);
        char *lock = lock_told_at(&process->notes, event->name ? event->name : "", event->site ? event->site : "");
        char *line = say_text(" %s %s\n", lock, place);
        tell(&run->output, line, strlen(line));
        free(lock);
        free(place);
        free(line);
    }
}

/* Of --blocks: the locks whose block isn't known. They have other types, and nothing is missing. */
static void tell_blocks(struct process *process)
{
    unsigned long blocks;
    if (stream_count(&process->stream, "blocks", &blocks) && blocks > 0)
        say(&process->run->output,
            "%s: --blocks: of %lu locks the block of memory isn't known; they are told as without it", process->name,
            blocks);
}

/* What the replay doesn't tell: what was left out, and releases by other threads. */
static void tell_missed(struct process *process)
{
    struct run *run = process->run;
    char *missed = missed_of(process->stream.head);
    if (*missed) {
        run->partly = true;
        say(&run->output, "%s: not recorded: %s", process->name, missed);
    }
    free(missed);
    tell_blocks(process);
    tell_waits(process);
    tell_releases(process);
    tell_errors(process);
}

/* What is told of the whole run later. */
static void keep_for_later(struct process *process)
{
    struct run *run = process->run;
    const struct notes *notes = &process->notes;
    for (size_t i = 0; i < process->ignored.count; i++)
        *(process->ignored.report[i].ignored == IGNORED_BY_USER ? &run->ignored : &run->known) += 1;
    for (size_t i = 0; i < notes->matches; i++) {
        size_t at = 0;
        while (at < run->matches && run->matched[at] != notes->matched[i])
            at++;
        if (at == run->matches)
            ADD(run->matched, run->matches, run->matched_room) = notes->matched[i];
    }
    for (size_t i = 0; i < notes->libraries; i++)
        if (!has_text(run->library, run->libraries, notes->library[i]))
            ADD(run->library, run->libraries, run->library_room) = copy(notes->library[i]);
    for (size_t i = 0; i < notes->blinds; i++)
        if (!has_text(run->blind, run->blinds, notes->blind[i]))
            ADD(run->blind, run->blinds, run->blind_room) = copy(notes->blind[i]);
}

static void keep_trace(struct process *process)
{
    struct run *run = process->run;
    const char *keep = run->settings.keep;
    if (!is_asked(keep))
        return;
    if (run->shown > 0 && written_is_special(keep)) {
        if (run->shown == 1)
            say(&run->output, "%s isn't a regular file: it has the trace of the first process alone", keep);
        return;
    }
    char *file = run->shown > 0 ? say_text("%s.%zu", keep, run->shown) : copy(keep);
    if (!trace_is_written(process, file))
        say(&run->output, "%s can't be written: the trace isn't kept", file);
    free(file);
}

static void tell_all(struct process *process)
{
    replay(process);
    if (is_replayed(process))
        add_circles(process);
    else
        tell_failure(process);
    tell_reports(process);
    tell_held(process);
    look_for_premises(process);
    if (is_replayed(process))
        tell_legality(process);
    if (is_replayed(process))
        learn_take(process);
    tell_missed(process);
    keep_for_later(process);
    keep_trace(process);
    report_files_take(process);
}

void tell_process(struct run *run, const struct recording *recording)
{
    struct process *process = take(sizeof *process);
    char *path = say_text("%s/%s", run->records, recording->name);
    process->run = run;
    process->recording = recording;
    run_has_word(run, recording->process);
    bool is_open = stream_open(&process->stream, path, recording->goes_on);
    if (is_open && version_is_own(process->stream.bytes, process->stream.length)) {
        process->name = process->stream.program ? process->stream.program : "";
        tell_all(process);
    } else {
        run->unknown = true;
        keep_recording(run);
        say(&run->output, "process %ld: nothing is known of it: %s %s", recording->process, path,
            is_open ? "is of a recorder of another version" : "can't be read");
    }
    if (is_open)
        stream_close(&process->stream);
    run->shown++;
    process_end(process);
    free(process);
    free(path);
}

void process_end(struct process *process)
{
    reports_end(&process->reports);
    reports_end(&process->ignored);
    if (!process->has_lent_notes)
        notes_end(&process->notes);
    state_end(&process->state);
}
