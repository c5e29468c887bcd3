#include "confirm_from.h"

#include <stdio.h>
#include <stdlib.h>
#include <string.h>

#include "allocation.h"
#include "confirm.h"
#include "json_reader.h"
#include "object_file.h"
#include "place_words.h"
#include "show_run.h"
#include "steering_plan.h"
#include "usage.h"

enum { BYTES_MOST = 1 << 28, FORMAT = 1 };

/* The reports of the file. */
struct reading {
    const char *path;
    struct texts *texts;
    struct run *run;
    struct subject *subject;
    size_t subjects, room;
};

static char *contents_of(const char *path)
{
    FILE *file = fopen(path, "re");
    char *text = NULL;
    size_t length = 0, room = 0, got;
    if (!file)
        refuse_target("%s can't be read", path);
    do {
        if (length + 1 >= room)
            text = grow(text, room = room ? 2 * room : 1 << 16, 1);
        got = fread(text + length, 1, room - length - 1, file);
        length += got;
    } while (got > 0 && length < BYTES_MOST);
    fclose(file);
    text[length] = '\0';
    return text;
}

/* Offsets mean nothing in another build. */
static void check_build(struct reading *reading, const struct value *code)
{
    const char *object = text_of(code, "object"), *build_id = text_of(code, "build_id");
    if (!object || number_of(code, "named"))
        return;
    if (!build_id)
        refuse_target("%s: %s has no build id, so it isn't known whether it is the one that was recorded",
            reading->path, object);
    struct object_file file = object_file_read(object, reading->texts);
    if (!file.build_id || strcmp(file.build_id, build_id) != 0)
        refuse_target("%s: %s isn't the one that was recorded: record it anew", reading->path, object);
}

static struct code_place code_of_value(struct reading *reading, const struct value *value)
{
    if (!value || value->kind != VALUE_OBJECT)
        return (struct code_place){0};
    check_build(reading, value);
    return (struct code_place){text_of(value, "object"), text_of(value, "build_id"),
        (uint64_t)number_of(value, "offset"), number_of(value, "named") != 0};
}

/* The variable that the type's lock is. */
static struct code_place variable_of(struct reading *reading, const struct value *report, const char *type)
{
    for (const struct value *each = list_of(report, "variables"); each && type; each = each->next) {
        const char *found = text_of(each, "type");
        if (found && strcmp(found, type) == 0)
            return code_of_value(reading, each);
    }
    return (struct code_place){0};
}

/* Where `value` is NULL, nothing is known of the place. */
static struct planned_place place_of_value(struct reading *reading, const struct value *value,
    const struct value *report, const char *type)
{
    struct planned_place place = {.site = text_of(value, "site"), .at = (unsigned long)number_of(value, "at")};
    place.lock = variable_of(reading, report, type);
    for (const struct value *call = list_of(value, "calls"); call && place.calls < CALLS_MOST; call = call->next)
        place.call[place.calls++] =
            (struct call){code_of_value(reading, call), code_of_value(reading, value_of(call, "rest"))};
    return place;
}

static void add_orders(struct reading *reading, struct planned *planned, const struct value *report)
{
    const struct value *held = list_of(report, "held");
    for (const struct value *step = list_of(report, "established"); step; step = step->next) {
        const struct value *first = value_of(step, "taken");
        struct planned_place taken = place_of_value(reading, first, report, text_of(step, "from"));
        struct planned_place asked = place_of_value(reading, step, report, text_of(step, "to"));
        planned_adds(planned, &taken, &asked);
    }
    while (held && held->next)
        held = held->next;
    const struct value *last = value_of(report, "asked");
    struct planned_place taken = place_of_value(reading, held, report, text_of(held, "type"));
    struct planned_place asked = place_of_value(reading, last, report, text_of(last, "type"));
    planned_adds(planned, &taken, &asked);
}

static const char *about(const struct value *report, struct texts *texts)
{
    const struct value *held = list_of(report, "held"), *asked = value_of(report, "asked");
    while (held && held->next)
        held = held->next;
    const char *first = text_of(held, "lock"), *last = text_of(asked, "lock"), *site = text_of(asked, "site");
    char *place = place_told(site);
    const char *about = texts_say(texts, "\"%s\" and \"%s\" %s", first ? first : "?", last ? last : "?", place);
    free(place);
    return about;
}

static void read_types(struct reading *reading, struct subject *subject, const struct value *report)
{
    size_t count = 0;
    for (const struct value *type = list_of(report, "types"); type; type = type->next)
        count++;
    const char **types = texts_room(reading->texts, (count + 1) * sizeof *types);
    for (const struct value *type = list_of(report, "types"); type; type = type->next)
        types[subject->types++] = type->text ? type->text : "";
    subject->type = types;
}

static void read_report(struct reading *reading, const struct value *report)
{
    const char *kind = text_of(report, "kind"), *grade = text_of(value_of(report, "single"), "grade");
    if (!kind || (strcmp(kind, "reversal") != 0 && strcmp(kind, "duplicate") != 0) || number_of(report, "silenced"))
        return;
    struct planned *planned = take(sizeof *planned);
    struct subject subject = {.about = about(report, reading->texts), .confirmed = take(sizeof *subject.confirmed)};
    subject.runs = grade && strcmp(grade, "thread") == 0 ? 1 : (unsigned)reading->run->settings.confirm;
    read_types(reading, &subject, report);
    planned_begins(planned);
    add_orders(reading, planned, report);
    if (planned->plan.orders > 0)
        subject.planned = planned;
    else
        free(planned);
    ADD(reading->subject, reading->subjects, reading->room) = subject;
}

static void tell_last_line(const struct run *run, size_t reports)
{
    say(&run->output, "%zu report%s, %lu confirmed", reports, reports == 1 ? "" : "s", run->confirmed);
}

int confirm_from(struct run *run)
{
    struct reading reading = {.path = run->settings.confirm_from, .texts = texts_new(), .run = run};
    char *text = contents_of(reading.path);
    const struct value *findings = json_read(text, reading.texts);
    const char *format = text_of(findings, "format");
    free(text);
    if (!format || strcmp(format, "record-findings") != 0 || number_of(findings, "version") != FORMAT)
        refuse_target("%s isn't a file that record --json has written", reading.path);
    for (const struct value *report = list_of(findings, "reports"); report; report = report->next)
        read_report(&reading, report);
    run_has_word(run, 0);
    confirm_subjects(run, reading.subject, reading.subjects);
    tell_last_line(run, reading.subjects);
    for (size_t i = 0; i < reading.subjects; i++) {
        free(reading.subject[i].planned);
        confirmed_end(reading.subject[i].confirmed);
    }
    free(reading.subject);
    texts_end(reading.texts);
    return run->confirmed > 0 ? run->settings.error : 0;
}
