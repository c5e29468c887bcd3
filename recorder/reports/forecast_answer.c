#include "forecast_answer.h"

#include <stdlib.h>
#include <string.h>

#include "allocation.h"
#include "line.h"
#include "schedule.h"
#include "schedule_rows.h"

struct reading {
    const struct errand_trace *trace;
    const struct notes *notes;
    const struct circle *circle;
    bool is_schedule;       /* its lines are being read */
    struct errand_act *act; /* what the seats did in it */
    size_t acts, act_room;
    size_t *done; /* by seats, how many of their steps */
    bool *waits;  /* and whether it asks, at its errand's end */
    bool is_odd;  /* a line isn't the one that must come */
};

static struct schedule *schedule_of(const struct reading *reading, size_t circle)
{
    return reading->circle[circle].report->schedule;
}

static void begin_schedule(struct reading *reading)
{
    reading->is_schedule = true;
    reading->is_odd = false;
    reading->acts = 0;
    memset(reading->done, 0, reading->trace->seats * sizeof *reading->done);
    memset(reading->waits, 0, reading->trace->seats * sizeof *reading->waits);
}

/* A schedule ends with seats of one circle that wait. The first one of a circle counts. */
static void end_schedule(struct reading *reading)
{
    const struct errand_seat *seat = reading->trace->seat;
    size_t waiting = 0, circle = 0;
    bool of_one = !reading->is_odd;
    for (size_t i = 0; i < reading->trace->seats; i++) {
        if (!reading->waits[i])
            continue;
        of_one = of_one && (waiting == 0 || seat[i].circle == circle);
        circle = seat[i].circle;
        waiting++;
    }
    bool is_one = reading->is_schedule && of_one && waiting > 1;
    reading->is_schedule = false;
    if (!is_one || schedule_of(reading, circle)->result == SCHEDULE_HANGS)
        return;
    schedule_of(reading, circle)->result = SCHEDULE_HANGS;
    for (size_t i = 0; i < reading->trace->seats; i++)
        if (reading->waits[i])
            reading->circle[circle].used[seat[i].fact - reading->circle[circle].report->fact] = seat[i].telling;
    schedule_rows(schedule_of(reading, circle), reading->trace, reading->notes, reading->act, reading->acts,
        reading->waits);
}

/* A step of the seat's, in the sequence of its errand. After its request it lets go what it has. */
static void read_step(struct reading *reading, size_t number, bool gets)
{
    const struct errand_seat *seat = &reading->trace->seat[number];
    size_t step = reading->done[number];
    if (step == seat->steps)
        return;
    reading->is_odd |= seat->step[step].gets != gets;
    ADD(reading->act, reading->acts, reading->act_room) = (struct errand_act){number, step};
    reading->done[number]++;
}

static void read_schedule_line(struct reading *reading, const struct line *line)
{
    uint32_t number;
    if (!field_number(line, 1, (uint32_t)reading->trace->seats, &number) || number-- == 0) {
        reading->is_odd |= !field_is(line, 0, "profile");
        return;
    }
    if (field_is(line, 0, "trytake"))
        read_step(reading, number, true);
    else if (field_is(line, 0, "free"))
        read_step(reading, number, false);
    else if (field_is(line, 0, "check"))
        reading->waits[number] = reading->done[number] == reading->trace->seat[number].steps;
    else if (field_is(line, 0, "giveup"))
        reading->waits[number] = false;
}

/* The seat of that line; as many as there are where it is of none. */
static size_t seat_at(const struct errand_trace *trace, unsigned long line)
{
    size_t at = 0;
    while (at < trace->seats && !(line >= trace->seat[at].first_line && line <= trace->seat[at].check_line))
        at++;
    return at;
}

/* How much it says, of what isn't a schedule: what says more counts. */
static int weight(enum schedule_result result)
{
    static const int weights[SCHEDULE_UNTOLD + 1] =
        {[SCHEDULE_READERS] = 1, [SCHEDULE_GATE] = 2, [SCHEDULE_BARRED] = 3, [SCHEDULE_UNDECIDED] = 4, [SCHEDULE_HANGS] = 5};
    return weights[result];
}

static void say(const struct reading *reading, size_t circle, enum schedule_result result, struct schedule_row bar)
{
    struct schedule *schedule = schedule_of(reading, circle);
    if (weight(result) <= weight(schedule->result))
        return;
    schedule->result = result;
    schedule->bar = bar;
}

/* The step of that line can't be done when the others have come to their requests. */
static void say_barred(const struct reading *reading, unsigned long line)
{
    size_t at = seat_at(reading->trace, line);
    if (at == reading->trace->seats)
        return;
    const struct errand_seat *seat = &reading->trace->seat[at];
    size_t step = (line - seat->first_line) / 2;
    if (step < seat->steps)
        say(reading, seat->circle, SCHEDULE_BARRED, schedule_row_of(reading->trace, reading->notes, at, step));
}

/* `report N, line M: WORDS`. */
static void read_words(const struct reading *reading, const struct line *line)
{
    char *end;
    unsigned long asked = line->count > 3 ? strtoul(line->field[3].at, &end, 10) : 0;
    size_t at = seat_at(reading->trace, asked);
    uint32_t number = 0;
    if (at == reading->trace->seats)
        return;
    size_t circle = reading->trace->seat[at].circle;
    if (field_is(line, 4, "barred") && field_number(line, 5, UINT32_MAX - 1, &number))
        say_barred(reading, number);
    else if (field_is(line, 4, "gate") && field_number(line, 5, (uint32_t)reading->trace->locks, &number) && number > 0)
        say(reading, circle, SCHEDULE_GATE,
            (struct schedule_row){.lock = schedule_lock(reading->trace, reading->notes, number)});
    else if (field_is(line, 4, "readers"))
        say(reading, circle, SCHEDULE_READERS, (struct schedule_row){0});
    else
        say(reading, circle, SCHEDULE_UNDECIDED, (struct schedule_row){0});
}

static void read_line(struct reading *reading, const struct line *line)
{
    bool is_head = field_is(line, 0, "witness-trace"), are_words = field_is(line, 0, "report");
    if (is_head || are_words)
        end_schedule(reading);
    if (is_head)
        begin_schedule(reading);
    else if (are_words)
        read_words(reading, line);
    else if (reading->is_schedule)
        read_schedule_line(reading, line);
}

void schedules_read(const struct errand_trace *trace, const struct notes *notes, const struct circle *circle,
    const char *answer, size_t length)
{
    struct line line;
    const char *at = answer;
    struct reading reading = {.trace = trace, .notes = notes, .circle = circle};
    reading.done = take((trace->seats + 1) * sizeof *reading.done);
    reading.waits = take((trace->seats + 1) * sizeof *reading.waits);
    while (line_next(&line, &at, answer + length))
        read_line(&reading, &line);
    end_schedule(&reading);
    free(reading.act);
    free(reading.done);
    free(reading.waits);
}
