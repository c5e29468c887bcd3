/*
 * driver report|pictures CASE: writes the JSON report of a case on standard output, without pictures or with them.
 *
 * A case has a line for each thing, in which fields are parted by tabs, and \xHH is that byte. An empty field is: not known.
 *   program NAME, directory NAME, ignore NAME, version NAME, kit NAME, words WORDS, built SECONDS   of the whole run
 *   say TEXT                          a line that was told
 *   process NUMBER NAME               a further process; what follows is of it
 *   thread NUMBER NAME MAKER SITE
 *   frames FUNCTION SITE ..           a stack; stacks have numbers from 1 on; a function `-` isn't known
 *   spot SITE FRAMES THREAD           a place; places have numbers from 1 on
 *   alias TYPE FUNCTIONS
 *   report HEAD                       of the verifier: a reversal, a duplicate, or something else, by its first letter
 *   lock NAME TYPE CLASS SPOT         a lock of it, at the place of that number
 *   step FROM TO SPOT                 a step of its established order
 *   silenced                          the reports that follow are silenced, up to the end of the process
 *   waits HEAD, wait SEAT HOLDER LOCK TEXT PLACE, hold SEAT LOCK TEXT PLACE   a circle, a line of it (HOLDER 0: the thread itself)
 *   order FROM TO SITE, reversal FROM TO SITE, broken FROM TO SITE
 */
#include <stdio.h>
#include <stdlib.h>
#include <string.h>

#include "document.h"
#include "run_reports.h"
#include "json.h"
#include "allocation.h"
#include "pictures.h"

enum { FIELDS = 40 };

static struct run_reports gathered;
static struct reports *telling; /* where reports are added */

/* \xHH as its byte, in place. */
static char *unescape(char *text)
{
    char *to = text, hex[3] = "";
    for (char *at = text; *at; at++) {
        if (at[0] == '\\' && at[1] == 'x' && at[2] && at[3]) {
            memcpy(hex, at + 2, 2);
            *to++ = (char)strtol(hex, NULL, 16);
            at += 3;
        } else {
            *to++ = *at;
        }
    }
    *to = '\0';
    return text;
}

static const char *known(const char *field)
{
    return field && *field ? copy(field) : NULL;
}

static struct found *last(void)
{
    return &gathered.found[gathered.count - 1];
}

static void end_reports(struct reports *reports)
{
    for (size_t i = 0; i < reports->count; i++)
        if (reports->report[i].last > 0)
            report_names_ignore_line(&reports->report[i], reports->notes);
}

static void end_process(void)
{
    if (gathered.count == 0)
        return;
    end_reports(&last()->reports);
    end_reports(&last()->ignored);
}

static void begin_process(char **field)
{
    end_process();
    struct found *found = run_reports_add(&gathered, field[1], atol(field[0]));
    found->reports.notes = found->ignored.notes = &found->notes;
    found->notes.has_callers = true;
    telling = &found->reports;
}

static void add_report(const char *head)
{
    enum report_kind kind = *head == 'l' ? REPORT_REVERSAL : *head == 'a' ? REPORT_DUPLICATE : REPORT_OTHER;
    reports_add(telling, kind, head);
}

static void add_lock(struct notes *notes, char **field)
{
    ADD(notes->lock, notes->locks, notes->lock_room) =
        (struct lock_name){.name = copy(field[0]), .type = copy(field[1]), .class = copy(field[2])};
    reports_add_lock(telling, &notes->lock[notes->locks - 1], (size_t)atol(field[3]));
}

static void add_step(char **field)
{
    const struct report *report = &telling->report[telling->count - 1];
    if (report->line[report->lines - 1].kind == LINE_LOCK)
        reports_add_words(telling, "established order:");
    reports_add_step(telling, field[0], field[1], (size_t)atol(field[2]));
}

static void add_frames(struct notes *notes, char **field, size_t fields)
{
    struct frames *frames = &ADD(notes->frames, notes->framed, notes->frames_room);
    *frames = (struct frames){.frame = take(fields * sizeof *frames->frame), .count = fields / 2};
    for (size_t i = 0; i + 1 < fields; i += 2)
        frames->frame[i / 2] = (struct frame){strcmp(field[i], "-") == 0 ? NULL : copy(field[i]), copy(field[i + 1])};
}

static void add_line(struct reports *reports, enum line_kind kind, char **field)
{
    bool waits = kind == LINE_WAITS;
    struct report_line *line = reports_add_line(reports, kind, field[waits ? 3 : 2], 0, field[waits ? 4 : 3]);
    line->seat = (unsigned)atoi(field[0]);
    line->next = waits ? (unsigned)atoi(field[1]) : 0;
    line->name = copy(field[waits ? 2 : 1]);
}

static void add_order(struct order_list *orders, char **field, bool is_reversal, bool is_broken)
{
    ADD(orders->order, orders->count, orders->room) =
        (struct order){copy(field[0]), copy(field[1]), *field[2] ? copy(field[2]) : NULL, is_reversal, is_broken};
}

/* A line of a process. False where it is none. */
static bool read_of_process(const char *word, char **field, size_t fields)
{
    struct notes *notes = &last()->notes;
    struct reports *reports = &last()->reports;
    if (!strcmp(word, "thread"))
        ADD(notes->event, notes->events, notes->event_room) = (struct event){.kind = EVENT_THREAD,
                                                                             .thread = atol(field[0]),
                                                                             .name = known(field[1]),
                                                                             .maker = known(field[2]),
                                                                             .site = known(field[3])};
    else if (!strcmp(word, "frames"))
        add_frames(notes, field, fields);
    else if (!strcmp(word, "spot"))
        ADD(notes->spot, notes->spots, notes->spot_room) =
            (struct spot){.site = known(field[0]), .frames = (uint32_t)atoi(field[1]), .thread = atol(field[2])};
    else if (!strcmp(word, "alias"))
        ADD(notes->alias, notes->aliases, notes->alias_room) =
            (struct alias){.type = copy(field[0]), .by_lines = copy(field[0]), .functions = copy(field[1])};
    else if (!strcmp(word, "report"))
        add_report(field[0]);
    else if (!strcmp(word, "lock"))
        add_lock(notes, field);
    else if (!strcmp(word, "step"))
        add_step(field);
    else if (!strcmp(word, "silenced"))
        telling = &last()->ignored;
    else if (!strcmp(word, "waits"))
        reports_add(reports, *field[0] == 'c' ? REPORT_CIRCLE : REPORT_SELF, field[0]);
    else if (!strcmp(word, "wait") || !strcmp(word, "hold"))
        add_line(reports, *word == 'w' ? LINE_WAITS : LINE_HOLDS, field);
    else if (!strcmp(word, "order") || !strcmp(word, "reversal") || !strcmp(word, "broken"))
        add_order(&last()->orders, field, *word == 'r', *word == 'b');
    else
        return false;
    return true;
}

static bool read_line(const char *word, char **field, size_t fields)
{
    if (!strcmp(word, "program"))
        gathered.program = copy(field[0]);
    else if (!strcmp(word, "directory"))
        gathered.directory = copy(field[0]);
    else if (!strcmp(word, "ignore"))
        gathered.ignore = copy(field[0]);
    else if (!strcmp(word, "words"))
        gathered.words = copy(field[0]);
    else if (!strcmp(word, "kit"))
        gathered.kit = copy(field[0]);
    else if (!strcmp(word, "version"))
        gathered.version = copy(field[0]);
    else if (!strcmp(word, "built"))
        gathered.built = atol(field[0]);
    else if (!strcmp(word, "say"))
        run_reports_tell(&gathered, 0, field[0]);
    else if (!strcmp(word, "process"))
        begin_process(field);
    else
        return gathered.count > 0 && read_of_process(word, field, fields);
    return true;
}

static bool read_case(FILE *from)
{
    char *line = NULL;
    size_t room = 0;
    while (getline(&line, &room, from) >= 0) {
        char *field[FIELDS], *rest = line, *word = strsep(&rest, " \n");
        size_t fields = 0;
        for (size_t i = 0; i < FIELDS; i++)
            field[i] = "";
        if (rest)
            rest[strcspn(rest, "\n")] = '\0';
        for (char *each; fields < FIELDS && (each = strsep(&rest, "\t")) != NULL;)
            field[fields++] = unescape(each);
        if (*word && *word != '#' && !read_line(word, field, fields)) {
            fprintf(stderr, "driver: no line of a case: %s\n", word);
            return false;
        }
    }
    free(line);
    end_process();
    run_reports_gather(&gathered);
    return true;
}

int main(int count, char **words)
{
    FILE *from = count == 3 ? fopen(words[2], "r") : NULL;
    if (!from || !read_case(from))
        return 2;
    fclose(from);
    size_t length = 0;
    const char *witness = getenv("WITNESS");
    char *report = document_report(&gathered, &length);
    if (!strcmp(words[1], "pictures"))
        pictures_draw(&gathered, witness ? witness : "witness", report, length);
    free(report);
    json_write(stdout, &gathered);
    return 0;
}
