#include "report.h"

#include <stdlib.h>
#include <string.h>

#include "allocation.h"
#include "place_words.h"

struct report *reports_add(struct reports *reports, enum report_kind kind, const char *head)
{
    struct report *report = &ADD(reports->report, reports->count, reports->room);
    *report = (struct report){.kind = kind};
    ADD(report->line, report->lines, report->room) = (struct report_line){.text = copy(head)};
    return report;
}

/* What is known of the thread: the last note of it. */
static const struct event *known_of(const struct notes *notes, long thread)
{
    for (size_t i = notes->events; thread && i > 0; i--)
        if (notes->event[i - 1].kind == EVENT_THREAD && notes->event[i - 1].thread == thread)
            return &notes->event[i - 1];
    return NULL;
}

/* What the notes tell of the place. */
static void add_spot(struct report_line *line, const struct notes *notes, size_t number)
{
    const struct spot *spot = notes_spot(notes, number);
    line->site = notes_site(notes, number);
    if (!spot || !notes->has_callers)
        return;
    line->is_spot = true;
    line->spot = number;
    line->at = spot->at;
    line->thread = spot->thread;
    line->known = known_of(notes, spot->thread);
    line->frames = notes_frames(notes, number);
}

char *lock_told_at(const struct notes *notes, const char *name, const char *site)
{
    struct code_words code;
    return lock_told(name, code_words_read(&code, site) ? notes_lock_type(notes, name) : name);
}

/* Of a line of a circle, or of an error, whose heading are its words. */
static void say_other(struct report_line *line, const struct notes *notes)
{
    const char *open = strchr(line->words, '"'), *close = open ? strchr(open + 1, '"') : NULL;
    if (!close)
        return;
    char *name = copy_bytes(open + 1, (size_t)(close - open - 1)), *lock = lock_told_at(notes, name, line->site);
    char *words = say_text("%.*s%s%s", (int)(open - line->words), line->words, lock, close + 1);
    free(line->heading);
    free(line->words);
    line->heading = copy(words);
    line->words = words;
    free(name);
    free(lock);
}

/* From the first quote on. */
static const char *quoted(const char *heading)
{
    return heading + strcspn(heading, "\"");
}

/* Of a lock that is used at a place without a line: the type's name stands there once. */
static void say_lock(struct report_line *line)
{
    char *lock = lock_told(line->name, line->type);
    bool is_type = strcmp(line->name, line->type) == 0 || lock_number(line->name, line->type);
    char *heading = say_text("%.*s%s", (int)(quoted(line->heading) - line->heading), line->heading, lock);
    free(line->heading);
    free(line->words);
    line->heading = heading;
    line->words =
        is_type ? say_text("%s (%s)", heading, line->class) : say_text("%s (%s, %s)", heading, line->type, line->class);
    free(lock);
}

/* The line's place: of the notes by its number, else that site. */
static void add_place(struct report_line *line, const struct notes *notes, size_t spot, const char *site)
{
    struct code_words code;
    if (site)
        line->site = line->own_site = copy(site);
    else
        add_spot(line, notes, spot);
    if (line->kind == LINE_LOCK && code_words_read(&code, line->site))
        say_lock(line);
    else if (line->kind == LINE_WAITS || line->kind == LINE_HOLDS)
        say_other(line, notes);
    const char *own = !site && notes_spot(notes, spot) ? notes_spot(notes, spot)->told : NULL;
    char *told = own ? say_text("@ %s", own) : place_told(line->site);
    line->text = say_text("%s %s", line->words, told);
    free(told);
}

static struct report_line *new_line(struct reports *reports, enum line_kind kind)
{
    struct report *report = &reports->report[reports->count - 1];
    struct report_line *line = &ADD(report->line, report->lines, report->room);
    *line = (struct report_line){.kind = kind};
    return line;
}

struct report_line *reports_add_line(struct reports *reports, enum line_kind kind, const char *heading, size_t spot,
    const char *site)
{
    struct report_line *line = new_line(reports, kind);
    line->heading = copy(heading);
    line->words = copy(heading);
    add_place(line, reports->notes, spot, site);
    return line;
}

void reports_add_words(struct reports *reports, const char *words)
{
    new_line(reports, LINE_PLAIN)->text = copy(words);
}

static const char *class_words(const char *class)
{
    static const struct {
        const char *class, *words;
    } classes[] = {{"mtx", "sleep mutex"}, {"spin", "spin mutex"}};
    for (size_t i = 0; i < sizeof classes / sizeof *classes; i++)
        if (strcmp(classes[i].class, class) == 0)
            return classes[i].words;
    return class;
}

/* Which lock of its report it is. */
static const char *rank_of(const struct report *report)
{
    return report->last == 0 ? "1st" : report->first == 0 ? "2nd" : "3rd";
}

void reports_add_lock(struct reports *reports, const struct lock_name *lock, size_t spot)
{
    struct report_line *line = new_line(reports, LINE_LOCK);
    struct report *report = &reports->report[reports->count - 1];
    line->name = copy(lock->name);
    line->type = copy(lock->type);
    line->class = copy(class_words(lock->class));
    line->heading = say_text(" %s \"%s\"", rank_of(report), lock->name);
    line->words = say_text("%s (%s, %s)", line->heading, lock->type, line->class);
    add_place(line, reports->notes, spot, NULL);
    report->first = report->last;
    report->last = report->lines - 1;
}

void reports_add_step(struct reports *reports, const char *from, const char *into, size_t spot)
{
    char *heading = say_text(" \"%s\" -> \"%s\"", from, into);
    struct report_line *line = reports_add_line(reports, LINE_STEP, heading, spot, NULL);
    line->type = copy(from);
    line->other = copy(into);
    free(heading);
}

/* A type by what doesn't change with the lines of its source. */
static const char *stable(const struct notes *notes, const char *type)
{
    const struct alias *alias = notes_alias(notes, type);
    if (!alias || !alias->lasting.lasts)
        return alias && alias->functions ? alias->functions : type;
    const char *bare = alias->lasting.bare;
    for (size_t i = 0; i < notes->aliases; i++)
        if (&notes->alias[i] != alias && strcmp(notes->alias[i].lasting.bare, bare) == 0)
            return alias->lasting.name;
    return bare;
}

/* The last two locks of a reversal are those whose types are at odds. */
void report_names_ignore_line(struct report *report, const struct notes *notes)
{
    const char *last = stable(notes, report->line[report->last].type);
    if (report->kind == REPORT_DUPLICATE)
        report->ignore_line = say_text("\"%s\"", last);
    else
        report->ignore_line = say_text("\"%s\" \"%s\"", stable(notes, report->line[report->first].type), last);
}

unsigned long reports_counted(const struct reports *reports)
{
    unsigned long count = 0;
    for (size_t i = 0; i < reports->count; i++)
        count += reports->report[i].kind == REPORT_REVERSAL || reports->report[i].kind == REPORT_DUPLICATE;
    return count;
}

unsigned long reports_circles(const struct reports *reports)
{
    unsigned long count = 0;
    for (size_t i = 0; i < reports->count; i++)
        count += reports->report[i].kind == REPORT_CIRCLE || reports->report[i].kind == REPORT_SELF;
    return count;
}

bool reports_break(const struct reports *reports, const char *from, const char *into)
{
    for (size_t i = 0; i < reports->count; i++) {
        const struct report *report = &reports->report[i];
        for (size_t j = 0; report->kind == REPORT_REVERSAL && j < report->lines; j++)
            if (report->line[j].kind == LINE_STEP && strcmp(report->line[j].type, from) == 0
                && strcmp(report->line[j].other, into) == 0)
                return true;
    }
    return false;
}

static void free_line(struct report_line *line)
{
    free(line->text);
    free(line->words);
    free(line->own_site);
    free(line->heading);
    free(line->name);
    free(line->type);
    free(line->class);
    free(line->other);
}

void reports_end(struct reports *reports)
{
    for (size_t i = 0; i < reports->count; i++) {
        struct report *report = &reports->report[i];
        for (size_t j = 0; j < report->lines; j++)
            free_line(&report->line[j]);
        free(report->line);
        free(report->ignore_line);
        free(report->fact);
        schedule_end(report->schedule);
    }
    free(reports->report);
    *reports = (struct reports){0};
}

char *report_about(const struct report *report)
{
    const struct report_line *first = &report->line[report->first], *last = &report->line[report->last];
    if (!report->first || !report->last)
        return say_text("\"%s\"", report->line[0].text);
    char *place = place_told(last->site);
    char *about = say_text("%s and %s %s", quoted(first->heading), quoted(last->heading), place);
    free(place);
    return about;
}

char *report_lines(const struct report *report)
{
    char *text = NULL;
    size_t length = 0;
    FILE *to = open_memstream(&text, &length);
    if (!to)
        return copy("");
    for (size_t i = 0; i < report->lines; i++)
        fprintf(to, "%s\n", report->line[i].text);
    fclose(to);
    return text;
}
