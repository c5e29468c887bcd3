#include "schedule_rows.h"

#include <stdlib.h>

#include "allocation.h"

const char *schedule_lock(const struct errand_trace *trace, const struct notes *notes, size_t number)
{
    const struct single_lock *known = trace->lock[number - 1].known;
    const char *name = known ? notes_lock(notes, known->number)->name : "";
    const char *type = known && known->type < notes->single.types ? notes->single.type[known->type] : NULL;
    return *name ? name : type ? type : "?";
}

struct schedule_row schedule_row_of(const struct errand_trace *trace, const struct notes *notes, size_t at, size_t step)
{
    const struct errand_seat *seat = &trace->seat[at];
    const struct single_lock *asked = &seat->fact->pair->asked;
    bool is_request = step == seat->steps;
    uint32_t serial = is_request ? asked->serial : seat->step[step].serial;
    const struct single_step *had = errand_has(seat, serial, step);
    return (struct schedule_row){
        .thread = seat->fact->is_known ? seat->fact->thread : 0,
        .does = is_request          ? ROW_WAITS
            : seat->step[step].gets ? ROW_GETS
                                    : ROW_LETS_GO,
        .lock = schedule_lock(trace, notes, errand_lock_number(trace, seat, serial)),
        .shared = is_request ? asked->shared
            : had            ? had->shared
                             : seat->step[step].shared,
        .site = single_site(&notes->single, is_request ? seat->telling->place : seat->step[step].place),
    };
}

/* Seats that take part, in the sequence in which they begin: whose number is which column. */
struct columns_of {
    size_t seat[ERRAND_SEATS];
    size_t count;
};

static size_t column_of(struct columns_of *columns, size_t seat)
{
    size_t at = 0;
    while (at < columns->count && columns->seat[at] != seat)
        at++;
    if (at == columns->count)
        columns->seat[columns->count++] = seat;
    return at + 1;
}

/* Of one thread that has an earlier column, too, the later one is a further thread's. */
static void set_thread(struct schedule *schedule, struct schedule_row *row)
{
    for (size_t i = 0; i < schedule->rows && row->thread; i++) {
        const struct schedule_row *before = &schedule->row[i];
        if (before->thread != row->thread || before->column >= row->column)
            continue;
        row->like = row->thread;
        row->thread = 0;
        schedule->copies = true;
    }
}

static void add_row(struct schedule *schedule, struct schedule_row row, size_t column)
{
    row.column = column;
    set_thread(schedule, &row);
    schedule->rests_on += row.rests;
    ADD(schedule->row, schedule->rows, schedule->row_room) = row;
}

/* Whether the step is a get of that lock, or the request for it, that can't be beside one in that mode. */
static bool is_against(const struct errand_seat *seat, size_t step, uint32_t serial, bool shared)
{
    const struct single_lock *asked = &seat->fact->pair->asked;
    if (step == seat->steps)
        return asked->serial == serial && !(asked->shared && shared);
    return seat->step[step].gets && seat->step[step].serial == serial && !(seat->step[step].shared && shared);
}

/* How many of the seat's steps the acts have. */
static size_t steps_done(const struct errand_act *act, size_t acts, size_t seat)
{
    size_t done = 0;
    for (size_t i = 0; i < acts; i++)
        done += act[i].seat == seat;
    return done;
}

/*
 * Whether the get rests on what the other seat did: a step of it against this one came before this one in the run, and
 * hasn't here; or it has here, and came after it. Which of the two was first in the run is known by their lines in the file.
 */
static bool rests_on(struct schedule_row *row, const struct errand_trace *trace, const struct notes *notes,
    const struct errand_act *get, size_t other, size_t done)
{
    const struct errand_seat *seat = &trace->seat[other];
    const struct single_step *step = &trace->seat[get->seat].step[get->step];
    bool was_first = other < get->seat;
    size_t from = was_first ? done : 0, to = was_first ? seat->steps + 1 : done;
    for (size_t at = from; at < to; at++) {
        if (!is_against(seat, at, step->serial, step->shared))
            continue;
        row->rests = true;
        row->is_late = !was_first;
        row->other = schedule_row_of(trace, notes, other, at).site;
        return true;
    }
    return false;
}

void schedule_rows(struct schedule *schedule, const struct errand_trace *trace, const struct notes *notes,
    const struct errand_act *act, size_t acts, const bool *waits)
{
    struct columns_of *columns = take(sizeof *columns);
    for (size_t i = 0; i < acts; i++) {
        if (!waits[act[i].seat])
            continue;
        struct schedule_row row = schedule_row_of(trace, notes, act[i].seat, act[i].step);
        for (size_t other = 0; other < trace->seats && row.does == ROW_GETS && !row.rests; other++)
            if (waits[other] && other != act[i].seat)
                rests_on(&row, trace, notes, &act[i], other, steps_done(act, i, other));
        add_row(schedule, row, column_of(columns, act[i].seat));
    }
    for (size_t column = 1; column <= columns->count; column++) {
        const struct errand_seat *seat = &trace->seat[columns->seat[column - 1]];
        add_row(schedule, schedule_row_of(trace, notes, columns->seat[column - 1], seat->steps), column);
        schedule->ends |= seat->fact->pair->how == SINGLE_FOR_A_TIME;
    }
    free(columns);
}
