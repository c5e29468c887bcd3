#include "run_reports.h"

#include <inttypes.h>
#include <stdint.h>
#include <stdio.h>
#include <stdlib.h>
#include <string.h>

#include "allocation.h"

struct found *run_reports_add(struct run_reports *gathered, const char *program, long process)
{
    struct found *found = &ADD(gathered->found, gathered->count, gathered->found_room);
    *found = (struct found){.program = copy(program), .process = process};
    return found;
}

void run_reports_tell(struct run_reports *gathered, long process, const char *line)
{
    static const char head[] = "record: ";
    line += strncmp(line, head, sizeof head - 1) == 0 ? sizeof head - 1 : 0;
    ADD(gathered->told, gathered->tolds, gathered->told_room) =
        process ? say_text("process %ld: %s", process, line) : copy(line);
    gathered->summary = gathered->told[gathered->tolds - 1];
}

/* FNV-1a, with an end after each text. */
static uint64_t mix(uint64_t hash, const char *text)
{
    const uint64_t prime = 0x100000001b3u;
    for (; *text; text++)
        hash = (hash ^ (unsigned char)*text) * prime;
    return (hash ^ 0xffu) * prime;
}

/* A name goes without the numbers of lines, without offsets in objects, and without the number of a lock in its type. */
static char *without_numbers(const char *name)
{
    char *plain = copy(name), *to = plain;
    for (const char *at = name; *at; at++) {
        size_t digits = strspn(at + 1, "0123456789"),
               offset = strncmp(at, "+0x", 3) == 0 ? strspn(at + 3, "0123456789abcdef") : 0;
        if (*at == '/' && digits > 0 && at[1 + digits] == '\0')
            break;
        *to++ = *at;
        if (*at == ':')
            at += digits;
        else if (offset > 0 && at[3 + offset] == '(')
            at += 2 + offset;
    }
    *to = '\0';
    return plain;
}

/* Where a type has a name by functions, that is mixed in. Those of a member may be others in each run. */
static uint64_t mix_type(uint64_t hash, const struct notes *notes, const char *type)
{
    const struct alias *alias = notes_alias(notes, type);
    if (alias && alias->is_member)
        return mix(hash, alias->lasting.bare);
    if (alias && alias->functions)
        return mix(hash, alias->functions);
    char *plain = without_numbers(alias ? alias->by_lines : type);
    hash = mix(hash, plain);
    free(plain);
    return hash;
}

/* A lock that has another name than its type has a number in it, or is one of several in a variable. */
static uint64_t mix_lock(uint64_t hash, const struct notes *notes, const char *name)
{
    return mix_type(hash, notes, notes_lock_type(notes, name));
}

/* What the line gives to a fingerprint, 0 where that is nothing: its lock and the innermost function. */
static uint64_t hash_line(const struct report *report, const struct report_line *line, const struct notes *notes)
{
    const uint64_t begin = 0xcbf29ce484222325u;
    const char *function = line->frames && line->frames->count > 0 ? line->frames->frame[0].function : NULL;
    if (!function)
        function = "";
    if (report->kind == REPORT_OTHER || (report->kind == REPORT_ERROR && line == report->line))
        return mix(begin, line->text);
    if (line->kind == LINE_LOCK)
        return mix(mix_type(begin, notes, line->type), function);
    if (line->kind == LINE_WAITS || line->kind == LINE_HOLDS)
        return mix(
            mix_lock(mix(begin, line->kind == LINE_WAITS ? "waits" : "holds"), notes, line->name ? line->name : ""),
            function);
    return 0;
}

/* The kind, the types, and the functions: no lines, no numbers of threads. A circle may begin with any of its threads. */
static void make_fingerprint(struct run_report *entry)
{
    const struct report *report = entry->report;
    const struct notes *notes = &entry->found->notes;
    bool is_circle = report->kind == REPORT_CIRCLE;
    uint64_t hash = (uint64_t)report->kind + 1;
    for (size_t i = 0; i < report->lines; i++)
        hash = (is_circle ? hash : hash * 0x9e3779b97f4a7c15u) + hash_line(report, &report->line[i], notes);
    snprintf(entry->fingerprint, sizeof entry->fingerprint, "%016" PRIx64, hash);
}

static bool are_equal(const struct report *one, const struct report *other)
{
    bool is_equal = one->kind == other->kind && one->lines == other->lines;
    for (size_t i = 0; is_equal && i < one->lines; i++)
        is_equal = strcmp(one->line[i].text, other->line[i].text) == 0;
    return is_equal;
}

static struct run_report *find_equal(struct run_reports *gathered, const struct report *report, bool is_ignored)
{
    for (size_t i = 0; i < gathered->reports; i++)
        if (gathered->report[i].is_ignored == is_ignored && are_equal(gathered->report[i].report, report))
            return &gathered->report[i];
    return NULL;
}

/* A process may have taken single locks both ways where another one hasn't. */
static void grade(struct run_report *entry, const struct alarm *alarm, const struct schedule *schedule)
{
    if (entry->single && alarm_mildness(alarm) >= alarm_mildness(&entry->alarm))
        return;
    free(entry->single);
    entry->alarm = *alarm;
    entry->schedule = schedule;
    entry->single = alarm_text(alarm);
}

static void gather(struct run_reports *gathered, const struct found *found, const struct reports *reports, bool is_ignored)
{
    for (size_t i = 0; i < reports->count; i++) {
        const struct report *report = &reports->report[i];
        struct run_report *entry = find_equal(gathered, report, is_ignored);
        if (!entry) {
            entry = &ADD(gathered->report, gathered->reports, gathered->report_room);
            *entry = (struct run_report){.found = found, .report = report, .is_ignored = is_ignored};
            make_fingerprint(entry);
        }
        grade(entry, &report->alarm, report->schedule);
        entry->counts = !is_ignored && alarm_counts(&gathered->alarms, &entry->alarm);
        if (entry->processes == 0 || entry->process[entry->processes - 1] != found->process)
            ADD(entry->process, entry->processes, entry->room) = found->process;
    }
}

void run_reports_gather(struct run_reports *gathered)
{
    if (gathered->is_gathered)
        return;
    gathered->is_gathered = true;
    for (size_t i = 0; i < gathered->count; i++) {
        struct found *found = &gathered->found[i];
        found->reports.notes = &found->notes;
        found->ignored.notes = &found->notes;
        gather(gathered, found, &found->reports, false);
    }
    for (size_t i = 0; i < gathered->count; i++)
        gather(gathered, &gathered->found[i], &gathered->found[i].ignored, true);
}

static int by_thread(const void *left, const void *right)
{
    const struct event *one = *(const struct event *const *)left, *other = *(const struct event *const *)right;
    if (one->thread != other->thread)
        return one->thread < other->thread ? -1 : 1;
    return one < other ? -1 : one > other;
}

/* Of several notes of a thread the last one has its name. */
const struct event **found_threads(const struct found *found, size_t *count)
{
    const struct notes *notes = &found->notes;
    const struct event **thread = take((notes->events + 1) * sizeof *thread);
    size_t all = 0;
    *count = 0;
    for (size_t i = 0; i < notes->events; i++)
        if (notes->event[i].kind == EVENT_THREAD && notes->event[i].thread > 0)
            thread[all++] = &notes->event[i];
    qsort(thread, all, sizeof *thread, by_thread);
    for (size_t i = 0; i < all; i++)
        if (i + 1 == all || thread[i + 1]->thread != thread[i]->thread)
            thread[(*count)++] = thread[i];
    return thread;
}

void run_reports_end(struct run_reports *gathered)
{
    for (size_t i = 0; i < gathered->count; i++) {
        struct found *found = &gathered->found[i];
        reports_end(&found->reports);
        reports_end(&found->ignored);
        notes_end(&found->notes);
        orders_end(&found->orders);
        free(found->program);
        free(found->picture);
    }
    for (size_t i = 0; i < gathered->tolds; i++)
        free(gathered->told[i]);
    for (size_t i = 0; i < gathered->reports; i++) {
        free(gathered->report[i].process);
        free(gathered->report[i].single);
        free(gathered->report[i].picture);
        confirmed_end(gathered->report[i].confirmed);
    }
    free(gathered->report);
    free(gathered->found);
    free(gathered->told);
    *gathered = (struct run_reports){0};
}
