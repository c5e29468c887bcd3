#include "legality.h"

#include <stdlib.h>
#include <string.h>
#include <unistd.h>

#include "allocation.h"
#include "files.h"
#include "format.h"
#include "line.h"
#include "place_words.h"
#include "replay.h"
#include "verdict.h"

enum { FREE_ALL = 0, FREE_NOT = 3 };

/* The last line of what is written: the verdict comes after a trace that may be long. */
struct last_line {
    char *text;
    size_t length, room;
    bool is_whole; /* the next byte begins another line */
};

static ssize_t last_line_writes(void *cookie, const char *bytes, size_t length)
{
    struct last_line *line = cookie;
    const char *from = length > 1 ? memrchr(bytes, '\n', length - 1) : NULL;
    if (from)
        line->length = 0;
    else if (line->is_whole && length > 0)
        line->length = 0;
    from = from ? from + 1 : bytes;
    for (; from < bytes + length; from++)
        if (*from != '\n')
            ADD(line->text, line->length, line->room) = *from;
    line->is_whole = length > 0 && bytes[length - 1] == '\n';
    return (ssize_t)length;
}

/* Asks the verifier. A text of one's own: its last line. */
static char *verdict_of(const struct process *process, const char *trace, int *status)
{
    struct last_line line = {0};
    FILE *to = fopencookie(&line, "w", (cookie_io_functions_t){.write = last_line_writes});
    *status = 126;
    if (to) {
        *status = verdict_on(process->run->settings.witness, "migrate", trace, to);
        fclose(to);
    }
    char *text = copy_bytes(line.text ? line.text : "", line.length);
    free(line.text);
    return text;
}

/* What a seat gets that isn't free, by the line that says so; and where it asked for it, unless it tried. */
static char *told_get(const struct notes *notes, const struct line *line, const char *asked_at)
{
    uint32_t seat = 0, lock = 0;
    const struct field *last = &line->field[line->count - 1];
    field_number(line, 1, SEATS_MOST, &seat);
    field_number(line, 2, UINT32_MAX - 1, &lock);
    char *place = field_is(line, 0, WORD_TRY) ? copy_bytes(last->at, last->length) : copy(asked_at ? asked_at : "");
    char *told = place_told(place);
    char *text = say_text("seat %u gets \"%s\", which isn't free, %s", seat, notes_lock(notes, lock)->name, told);
    free(told);
    free(place);
    return text;
}

/* The place of a request, by its seat. */
static void keep_place(char **asked_at, const struct line *line)
{
    uint32_t seat;
    if (!field_is(line, 0, WORD_CHECK) || !field_number(line, 1, SEATS_MOST, &seat))
        return;
    const struct field *last = &line->field[line->count - 1];
    free(asked_at[seat]);
    asked_at[seat] = copy_bytes(last->at, last->length);
}

/* What stands in that line of the trace; NULL where it has none. */
static char *read_line(const struct notes *notes, FILE *from, unsigned long wanted, char **asked_at)
{
    char *text = NULL, *told = NULL;
    size_t room = 0;
    ssize_t length;
    for (unsigned long number = 1; number <= wanted && (length = getline(&text, &room, from)) > 0; number++) {
        struct line line;
        const char *at = text;
        uint32_t seat;
        line_next(&line, &at, text + length);
        keep_place(asked_at, &line);
        if (number == wanted && field_number(&line, 1, SEATS_MOST, &seat))
            told = told_get(notes, &line, asked_at[seat]);
    }
    free(text);
    return told;
}

/* That; an empty text where there is no such line. */
static char *told_line(const struct notes *notes, const char *path, unsigned long number)
{
    char *asked_at[SEATS_MOST + 1] = {NULL};
    FILE *from = fopen(path, "re");
    char *told = from ? read_line(notes, from, number, asked_at) : NULL;
    if (from)
        fclose(from);
    for (size_t i = 0; i <= SEATS_MOST; i++)
        free(asked_at[i]);
    return told ? told : copy("");
}

/* The trace stays beside the recording. */
static void tell_illegal(struct process *process, const char *trace, const char *verdict)
{
    struct run *run = process->run;
    unsigned long number = 0;
    sscanf(verdict, "line %lu", &number);
    run->illegal = true;
    keep_recording(run);
    char *path = say_text("%s/%s.trace", run->records, process->recording->name);
    trace_is_written(process, path);
    free(path);
    char *line = told_line(&process->notes, trace, number);
    say(&run->output, "%s: judged: %s: %s", process->name, verdict, line);
    free(line);
}

static void tell_verdict(struct process *process, const char *trace)
{
    struct run *run = process->run;
    int status;
    char *verdict = verdict_of(process, trace, &status);
    if (status == FREE_ALL)
        say(&run->output, "%s: judged: each lock was free when it was taken", process->name);
    else if (status == FREE_NOT)
        tell_illegal(process, trace, verdict);
    else
        say(&run->output, "%s: it isn't judged: %s migrate ended with status %d", process->name, run->settings.witness,
            status);
    free(verdict);
}

void tell_legality(struct process *process)
{
    struct run *run = process->run;
    if (!run->settings.judge)
        return;
    char *trace = say_text("%s/trace", run->work);
    if (trace_is_written(process, trace))
        tell_verdict(process, trace);
    else
        say(&run->output, "%s: there is no room for its trace (is %s full?): it isn't judged", process->name,
            file_temporary());
    unlink(trace);
    free(trace);
}
