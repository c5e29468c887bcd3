#include "finding_lines.h"

#include <stdlib.h>
#include <string.h>

#include "allocation.h"
#include "grades.h"

/* So many lines are read before what they left is given back. */
enum { LINES_TOGETHER = 256 };

struct reading {
    struct reports *reports;
    struct state *state;
    bool is_over; /* what seats hold was told to its end */
};

/* The type of that name as it is told. */
static const char *type_of(const struct reading *reading, const struct value *object, const char *name)
{
    return notes_type(reading->reports->notes, words_of(object, name));
}

static size_t spot_of(const struct value *object)
{
    long long place = number_of(value_of(object, "at"), "place");
    return place > 0 ? (size_t)place : 0;
}

static unsigned small_number(const struct value *object, const char *name)
{
    return (unsigned)number_of(object, name);
}

/* A lock of a report, if it has one of that name. */
static void read_lock(const struct reading *reading, const struct value *finding, const char *name)
{
    struct reports *reports = reading->reports;
    const struct value *lock = value_of(finding, name);
    if (lock)
        reports_add_lock(reports, notes_lock(reports->notes, small_number(lock, "lock")), spot_of(lock));
}

/* The established order. */
static void read_path(const struct reading *reading, const struct value *finding)
{
    const struct value *step = list_of(finding, "path");
    if (step)
        reports_add_words(reading->reports, "established order:");
    for (; step; step = step->next)
        reports_add_step(reading->reports, type_of(reading, step, "from"), type_of(reading, step, "to"), spot_of(step));
}

/* The first line of a report. No type of a recording is sleepable, or called Giant. */
static struct report *add_head(const struct reading *reading, const struct value *finding, const char *kind)
{
    if (strcmp(kind, "reversal") == 0)
        return reports_add(reading->reports, REPORT_REVERSAL, "lock order reversal:");
    unsigned asked = small_number(value_of(finding, "asked"), "lock");
    char *head =
        say_text("acquiring duplicate lock of same type: \"%s\"", notes_lock(reading->reports->notes, asked)->type);
    struct report *report = reports_add(reading->reports, REPORT_DUPLICATE, head);
    free(head);
    return report;
}

static void read_report(struct reading *reading, const struct value *finding)
{
    const char *kind = words_of(finding, "kind");
    if (strcmp(kind, "exhausted") == 0) {
        reports_add(reading->reports, REPORT_OTHER, "witness exhausted");
        return;
    }
    struct report *report = add_head(reading, finding, kind);
    report->told_at = number_of(finding, "line");
    read_lock(reading, finding, "third");
    read_lock(reading, finding, "held");
    read_lock(reading, finding, "asked");
    read_path(reading, finding);
    if (report->first > 0)
        report_names_ignore_line(report, reading->reports->notes);
}

static void read_grade(struct reading *reading, const struct value *finding)
{
    grade_read(reading->reports, finding);
}

/* After a moment grades alone are asked for: a line that isn't known as one that asks is none of the recording. */
static void read_bad(struct reading *reading, const struct value *finding)
{
    if (reading->is_over)
        return;
    char *words = say_text("a line that can't be: %s", words_of(finding, "why"));
    reports_add(reading->reports, REPORT_OTHER, words);
    reading->state->bads++;
    free(words);
}

static void read_order(struct reading *reading, const struct value *finding)
{
    struct state *state = reading->state;
    ADD(state->order, state->orders, state->order_room) = (struct known_order){copy(type_of(reading, finding, "from")),
        copy(type_of(reading, finding, "to")), spot_of(finding)};
}

/* The seat that a line tells of, NULL of none; what was told before is of an earlier moment. */
static struct seat *seat_of(struct reading *reading, const struct value *finding)
{
    unsigned number = small_number(finding, "seat");
    if (reading->is_over)
        state_forgets_seats(reading->state);
    reading->is_over = false;
    return number <= SEATS_MOST ? &reading->state->seat[number] : NULL;
}

static bool is_shared(const struct value *finding)
{
    return strcmp(words_of(finding, "mode"), "shared") == 0;
}

/* What a seat holds comes newest first. */
static void read_held(struct reading *reading, const struct value *finding)
{
    const struct value *lock = value_of(finding, "lock");
    struct seat *seat = seat_of(reading, finding);
    if (!seat)
        return;
    ADD(seat->held, seat->count, seat->room) = (struct holding){0};
    memmove(seat->held + 1, seat->held, (seat->count - 1) * sizeof *seat->held);
    seat->held[0] = (struct holding){small_number(lock, "lock"), is_shared(finding), spot_of(lock)};
}

static void read_asks(struct reading *reading, const struct value *finding)
{
    const struct value *lock = value_of(finding, "lock");
    struct seat *seat = seat_of(reading, finding);
    if (!seat)
        return;
    seat->asked = small_number(lock, "lock");
    seat->asked_shared = is_shared(finding);
    seat->asked_at = spot_of(lock);
}

static void read_circle(struct reading *reading, const struct value *finding)
{
    struct state *state = reading->state;
    for (const struct value *seat = list_of(finding, "seats"); seat; seat = seat->next)
        ADD(state->circle, state->circles, state->circle_room) = (unsigned)seat->number;
}

/* The last line of a moment. One in which no seat holds or asks has no other. */
static void read_clean(struct reading *reading, const struct value *finding)
{
    if (reading->is_over)
        state_forgets_seats(reading->state);
    reading->is_over = true;
    reading->state->is_clean = number_of(finding, "clean") != 0;
    reading->state->is_whole = true;
}

static const struct {
    const char *finding;
    void (*reads)(struct reading *reading, const struct value *finding);
} kinds[] = {
    {"order", read_order},
    {"report", read_report},
    {"held", read_held},
    {"asks", read_asks},
    {"circle", read_circle},
    {"clean", read_clean},
    {"bad", read_bad},
    {"grade", read_grade},
};

static void read_line(struct reading *reading, const struct value *finding)
{
    const char *kind = words_of(finding, "finding");
    for (size_t i = 0; i < sizeof kinds / sizeof *kinds; i++)
        if (strcmp(kinds[i].finding, kind) == 0)
            kinds[i].reads(reading, finding);
}

/* Whether what stands there is an order that isn't wanted: there may be many of them. */
static bool is_passed(const struct state *state, const char *line)
{
    return state->lacks_orders && IS_FINDING(line, "order");
}

void finding_lines_read(struct reports *reports, struct state *state, const char *told, size_t length)
{
    struct reading reading = {reports, state, state->is_whole};
    struct texts *texts = texts_new();
    const char *end = told + length, *after;
    for (size_t lines = 1; told < end && (after = memchr(told, '\n', (size_t)(end - told))) != NULL; told = after + 1) {
        if (is_passed(state, told))
            continue;
        const char *line = texts_copy(texts, told, (size_t)(after - told));
        read_line(&reading, json_read(line, texts));
        if (lines++ % LINES_TOGETHER != 0)
            continue;
        texts_end(texts);
        texts = texts_new();
    }
    texts_end(texts);
}
