#include "json.h"

#include <stdlib.h>

#include "allocation.h"
#include "describe.h"
#include "json_place.h"
#include "json_writer.h"
#include "sources.h"

enum { VERSION = 1, TYPES_SHOWN = 64 };

/* Where the first lock of a step was taken; null where that isn't known. */
static void write_taken(struct objects *to, const struct notes *notes, size_t number)
{
    const struct spot *spot = notes_spot(notes, number);
    if (!spot) {
        object_text(to, "taken", NULL);
        return;
    }
    object_open(to, "taken", '{');
    json_site(to, spot->site);
    json_calls(to, notes_frames(notes, number));
    object_close(to, '{');
}

static void write_lock(struct objects *to, const char *name, const struct report_line *line)
{
    object_open(to, name, '{');
    object_text(to, "lock", line->name);
    object_text(to, "type", line->type);
    object_text(to, "class", line->class);
    json_where(to, line);
    object_close(to, '{');
}

static void write_locks(struct objects *to, const struct report *report)
{
    const struct report_line *asked = NULL;
    object_open(to, "held", '[');
    for (size_t i = 0; i < report->lines; i++) {
        if (is_request(report, &report->line[i]))
            asked = &report->line[i];
        else if (report->line[i].kind == LINE_LOCK)
            write_lock(to, NULL, &report->line[i]);
    }
    object_close(to, '[');
    if (asked)
        write_lock(to, "asked", asked);
    else
        object_text(to, "asked", NULL);
}

static void write_steps(struct objects *to, const struct report *report, const struct notes *notes)
{
    object_open(to, "established", '[');
    for (size_t i = 0; i < report->lines; i++) {
        const struct report_line *line = &report->line[i];
        if (line->kind != LINE_STEP)
            continue;
        object_open(to, NULL, '{');
        object_text(to, "from", line->type);
        object_text(to, "to", line->other);
        json_where(to, line);
        write_taken(to, notes, line->held_spot);
        object_close(to, '{');
    }
    object_close(to, '[');
}

/* The lock of an error, and where that is. */
static void write_error(struct objects *to, const struct report *report)
{
    const struct report_line *line = report->kind == REPORT_ERROR && report->lines > 1 ? &report->line[1] : NULL;
    if (!line) {
        object_text(to, "error", NULL);
        return;
    }
    object_open(to, "error", '{');
    object_text(to, "lock", line->name);
    json_where(to, line);
    object_close(to, '{');
}

static void write_waits(struct objects *to, const struct report *report)
{
    object_open(to, "waits", '[');
    for (size_t i = 0; i < report->lines && report->kind != REPORT_ERROR; i++) {
        const struct report_line *line = &report->line[i];
        if (line->kind != LINE_WAITS && line->kind != LINE_HOLDS)
            continue;
        object_open(to, NULL, '{');
        object_number(to, "seat", line->seat);
        object_text(to, "does", line->kind == LINE_WAITS ? "waits" : "holds");
        object_text(to, "lock", line->name);
        object_known(to, "holder", line->kind == LINE_WAITS ? line->next : 0);
        json_where(to, line);
        object_close(to, '{');
    }
    object_close(to, '[');
}

/* In which list of the report the place of the line stands; NULL where it has none. */
static const char *list_of(const struct report *report, const struct report_line *line)
{
    if (line->kind == LINE_PLAIN)
        return NULL;
    if (line->kind == LINE_STEP)
        return "established";
    if (line->kind == LINE_LOCK)
        return is_request(report, line) ? "asked" : "held";
    if (report->kind != REPORT_ERROR)
        return "waits";
    return line == &report->line[1] ? "error" : NULL;
}

/* The lines as they are told, without their places. */
static void write_lines(struct objects *to, const struct report *report)
{
    object_open(to, "lines", '[');
    for (size_t i = 0; i < report->lines; i++) {
        const struct report_line *line = &report->line[i];
        const char *words = line->words ? line->words : line->text;
        object_open(to, NULL, '{');
        object_text(to, "words", words + (*words == ' '));
        object_text(to, "of", list_of(report, line));
        object_close(to, '{');
    }
    object_close(to, '[');
}

static void write_words(struct objects *to, const struct run_report *entry)
{
    const struct report *report = entry->report;
    char *words = describe(report);
    object_text(to, "description", words);
    free(words);
    object_open(to, "text", '[');
    for (size_t i = 0; i < report->lines; i++)
        object_text(to, NULL, report->line[i].text);
    object_close(to, '[');
    write_lines(to, report);
    object_open(to, "advice", '[');
    for (size_t i = 0; i < ADVICES; i++) {
        char *sentence = advice(report, &entry->alarm, i);
        if (sentence)
            object_text(to, NULL, sentence);
        free(sentence);
    }
    object_close(to, '[');
}

/* The place is null where none is known. */
static void write_row(struct objects *to, const struct schedule_row *row)
{
    static const char *const does[] = {[ROW_GETS] = "gets", [ROW_LETS_GO] = "lets go", [ROW_WAITS] = "waits"};
    object_open(to, NULL, '{');
    object_number(to, "column", (long long)row->column);
    object_known(to, "thread", row->thread);
    object_known(to, "like", row->like);
    object_text(to, "does", does[row->does]);
    object_text(to, "lock", row->lock);
    object_text(to, "mode", row->shared ? "shared" : "exclusive");
    json_site(to, row->site);
    object_truth(to, "rests", row->rests);
    object_close(to, '{');
}

/* How threads come to hang, or why not; null where no single locks were taken both ways. */
static void write_schedule(struct objects *to, const struct schedule *schedule)
{
    if (!schedule) {
        object_text(to, "schedule", NULL);
        return;
    }
    object_open(to, "schedule", '{');
    object_text(to, "result", schedule_word(schedule));
    object_text(to, "text", schedule->text);
    object_truth(to, "copies", schedule->copies);
    object_number(to, "rests_on", (long long)schedule->rests_on);
    object_open(to, "rows", '[');
    for (size_t i = 0; i < schedule->rows; i++)
        write_row(to, &schedule->row[i]);
    object_close(to, '[');
    object_close(to, '{');
}

/* What is known of the single locks of the types. */
static void write_single(struct objects *to, const struct run_report *entry)
{
    static const char *const grades[] =
        {[GRADE_UNKNOWN] = "unknown", [GRADE_TYPES] = "types", [GRADE_ONE_THREAD] = "thread", [GRADE_THREADS] = "threads"};
    const struct alarm *alarm = &entry->alarm;
    if (alarm->grade == GRADE_NONE) {
        object_text(to, "single", NULL);
        return;
    }
    object_open(to, "single", '{');
    object_text(to, "grade", grades[alarm->grade]);
    object_text(to, "gate", alarm->gate);
    object_truth(to, "readers", alarm->readers);
    object_truth(to, "timed", alarm->timed);
    object_truth(to, "apart", alarm->apart);
    object_open(to, "elsewhere", '[');
    for (size_t i = 0; i < alarm->elsewheres; i++) {
        object_open(to, NULL, '{');
        json_site(to, alarm->elsewhere[i]);
        object_close(to, '{');
    }
    object_close(to, '[');
    object_text(to, "text", entry->single);
    write_schedule(to, entry->schedule);
    object_close(to, '{');
}

/* What came of steered runs; null where none was to be made. */
static void write_confirmed(struct objects *to, const struct confirmed *confirmed)
{
    if (!confirmed) {
        object_text(to, "confirmed", NULL);
        return;
    }
    object_open(to, "confirmed", '{');
    object_number(to, "runs", confirmed->runs);
    object_known(to, "run", confirmed->run);
    object_seconds(to, "seconds", confirmed->run ? confirmed->hang.seconds : 0);
    object_open(to, "waits", '[');
    for (size_t i = 0; confirmed->run && i < confirmed->hang.threads; i++) {
        const struct hung_thread *thread = &confirmed->hang.thread[i];
        object_open(to, NULL, '{');
        object_number(to, "thread", thread->thread);
        object_text(to, "took", thread->took);
        json_trace_site(to, "took_at", thread->took_at);
        json_place(to, "took_place", thread->took_at);
        object_text(to, "waits_for", thread->wants);
        json_trace_site(to, "waits_at", thread->wants_at);
        json_place(to, "waits_place", thread->wants_at);
        object_close(to, '{');
    }
    object_close(to, '[');
    object_text(to, "text", confirmed->text);
    object_close(to, '{');
}

/* The variables that the types' locks are, where a type has one lock alone: by these a later run knows them. */
static void write_variables(struct objects *to, const struct notes *notes, const char *const *type, size_t types)
{
    object_open(to, "variables", '[');
    for (size_t i = 0; i < types; i++) {
        struct code_place variable = notes_variable(notes, type[i]);
        if (!variable.object)
            continue;
        object_open(to, NULL, '{');
        object_text(to, "type", type[i]);
        json_code(to, &variable);
        object_close(to, '{');
    }
    object_close(to, '[');
}

/* The names of the types in each run; of one that holds under a build alone with that. */
static void write_lasting(struct objects *to, const struct notes *notes, const char *const *type, size_t types)
{
    object_open(to, "lasting", '[');
    for (size_t i = 0; i < types; i++) {
        const struct alias *alias = notes_alias(notes, type[i]);
        if (!alias || !alias->lasting.name)
            continue;
        object_open(to, NULL, '{');
        object_text(to, "type", type[i]);
        object_text(to, "name", alias->lasting.name);
        object_text(to, "build_id", alias->lasting.lasts ? NULL : alias->lasting.build_id);
        object_close(to, '{');
    }
    object_close(to, '[');
}

static void write_report(struct objects *to, const struct run_report *entry)
{
    const struct notes *notes = &entry->found->notes;
    const char *type[TYPES_SHOWN];
    size_t types = report_types(entry->report, type, TYPES_SHOWN);
    object_open(to, NULL, '{');
    object_text(to, "kind", kinds[entry->report->kind]);
    object_text(to, "fingerprint", entry->fingerprint);
    object_text(to, "program", entry->found->program);
    object_open(to, "processes", '[');
    for (size_t i = 0; i < entry->processes; i++)
        object_number(to, NULL, entry->process[i]);
    object_close(to, '[');
    object_truth(to, "silenced", entry->is_ignored);
    object_text(to, "silence", entry->report->ignore_line);
    object_truth(to, "counts", entry->counts);
    write_single(to, entry);
    write_confirmed(to, entry->confirmed);
    object_open(to, "types", '[');
    for (size_t i = 0; i < types; i++)
        object_text(to, NULL, type[i]);
    object_close(to, '[');
    write_lasting(to, notes, type, types);
    write_variables(to, notes, type, types);
    write_locks(to, entry->report);
    write_steps(to, entry->report, notes);
    write_waits(to, entry->report);
    write_error(to, entry->report);
    write_words(to, entry);
    object_maybe(to, "picture", entry->picture);
    object_close(to, '{');
}

static void write_orders(struct objects *to, const struct order_list *orders)
{
    object_open(to, "orders", '[');
    for (size_t i = 0; i < orders->count; i++) {
        const struct order *order = &orders->order[i];
        object_open(to, NULL, '{');
        object_text(to, "from", order->from);
        object_text(to, "to", order->to);
        json_site(to, order->site);
        object_truth(to, "reversal", order->is_reversal);
        object_truth(to, "broken", order->is_broken);
        object_close(to, '{');
    }
    object_close(to, '[');
}

static void write_process(struct objects *to, const struct found *found)
{
    size_t count;
    const struct event **thread = found_threads(found, &count);
    object_open(to, NULL, '{');
    object_number(to, "process", found->process);
    object_text(to, "program", found->program);
    object_open(to, "threads", '[');
    for (size_t i = 0; i < count; i++)
        json_thread(to, NULL, thread[i]->thread, thread[i]);
    object_close(to, '[');
    free(thread);
    write_orders(to, &found->orders);
    object_maybe(to, "picture", found->picture);
    object_close(to, '{');
}

/* When the recording was told of: for programs, and on this machine. */
static void write_time(struct objects *to, time_t ended)
{
    char time[40];
    struct tm parts;
    bool is_known = ended && gmtime_r(&ended, &parts) && strftime(time, sizeof time, "%Y-%m-%dT%H:%M:%SZ", &parts);
    object_text(to, "ended", is_known ? time : NULL);
    is_known = ended && localtime_r(&ended, &parts) && strftime(time, sizeof time, "%Y-%m-%d %H:%M:%S %Z", &parts);
    object_text(to, "ended_here", is_known ? time : NULL);
}

/* Of the whole run. */
static void write_run(struct objects *to, const struct run_reports *gathered)
{
    object_text(to, "format", "record-findings");
    object_number(to, "version", VERSION);
    object_text(to, "command", gathered->command ? gathered->command : "record");
    object_text(to, "record", gathered->version);
    object_text(to, "kit", gathered->kit);
    object_text(to, "program", gathered->program);
    object_text(to, "words", gathered->words);
    object_text(to, "directory", gathered->directory);
    object_text(to, "ignore", gathered->ignore);
    write_time(to, gathered->ended);
    object_truth(to, "failed", gathered->has_failed);
    object_text(to, "summary", gathered->summary);
    object_open(to, "told", '[');
    for (size_t i = 0; i < gathered->tolds; i++)
        object_text(to, NULL, gathered->told[i]);
    object_close(to, '[');
}

void json_write(FILE *file, const struct run_reports *gathered)
{
    struct objects to = {.to = file};
    object_open(&to, NULL, '{');
    write_run(&to, gathered);
    sources_write(&to, gathered);
    object_open(&to, "reports", '[');
    for (size_t i = 0; i < gathered->reports; i++)
        write_report(&to, &gathered->report[i]);
    object_close(&to, '[');
    object_open(&to, "processes", '[');
    for (size_t i = 0; i < gathered->count; i++)
        write_process(&to, &gathered->found[i]);
    object_close(&to, '[');
    object_close(&to, '{');
}
