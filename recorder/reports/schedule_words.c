#include "schedule.h"

#include <stdio.h>
#include <stdlib.h>

#include "allocation.h"
#include "place_words.h"
#include "report.h"

static const char nowhere[] = "?:0";

static const char *site_of(const struct schedule_row *row)
{
    return row->site ? row->site : nowhere;
}

/* The last row of the column: who waits there. */
static const struct schedule_row *waiter(const struct schedule *schedule, size_t column)
{
    for (size_t i = schedule->rows; i > 0; i--)
        if (schedule->row[i - 1].column == column && schedule->row[i - 1].does == ROW_WAITS)
            return &schedule->row[i - 1];
    return NULL;
}

static size_t columns_of(const struct schedule *schedule)
{
    return schedule->rows > 0 ? schedule->row[schedule->rows - 1].column : 0;
}

/* `threads 7 and 9`, or `thread 7 and a further one that does what thread 7 did`. */
static void put_threads(FILE *to, const struct schedule *schedule)
{
    size_t count = columns_of(schedule);
    bool all = true;
    for (size_t column = 1; column <= count; column++)
        all = all && waiter(schedule, column)->thread;
    fputs(all ? "threads " : "", to);
    for (size_t column = 1; column <= count; column++) {
        const struct schedule_row *row = waiter(schedule, column);
        fputs(column == 1 ? "" : column == count ? " and " : ", ", to);
        if (row->thread)
            fprintf(to, "%s%ld", all ? "" : "thread ", row->thread);
        else if (row->like)
            fprintf(to, "a further one that does what thread %ld did", row->like);
        else
            fputs("a thread of which no number is known", to);
    }
}

/* Where an acquisition rests first, and on what: `(b.c:88 has "pool" before a.c:233)`. */
static void put_rest(FILE *to, const struct schedule *schedule, const struct notes *notes)
{
    const struct schedule_row *row = schedule->row;
    while (!row->rests)
        row++;
    char *place = place_name(site_of(row)), *other = place_name(row->other ? row->other : nowhere);
    char *lock = lock_told_at(notes, row->lock, site_of(row));
    fprintf(to, " (%s%s has %s %s %s)", schedule->rests_on > 1 ? "first " : "", place, lock,
        row->is_late ? "after" : "before", other);
    free(lock);
    free(place);
    free(other);
}

static void put_hang(FILE *to, const struct schedule *schedule, const struct notes *notes)
{
    fprintf(to, "%zu steps, ", schedule->rows);
    put_threads(to, schedule);
    if (schedule->ends)
        fputs(", until a time limit is over", to);
    if (schedule->rests_on == 0)
        return;
    fprintf(to, ", resting on %zu acquisition%s", schedule->rests_on, schedule->rests_on == 1 ? "" : "s");
    put_rest(to, schedule, notes);
}

/* Gates and readers are told only where the line above doesn't. */
static void put_reason(FILE *to, const struct schedule *schedule, const struct notes *notes)
{
    const struct schedule_row *bar = &schedule->bar;
    char *place = place_told(site_of(bar)), *lock = lock_told_at(notes, bar->lock ? bar->lock : "?", site_of(bar));
    char *thread = bar->thread ? say_text("thread %ld", bar->thread) : copy("a thread");
    if (schedule->result == SCHEDULE_BARRED)
        fprintf(to, "%s takes %s %s on its way, which is another one's by then", thread, lock, place);
    else if (schedule->result == SCHEDULE_GATE && bar->lock)
        fprintf(to, "two of them have %s when they ask", lock);
    else if (schedule->result == SCHEDULE_CUT)
        fputs("a thread did more on its way than is kept", to);
    else if (schedule->result == SCHEDULE_UNDECIDED)
        fputs("not all was looked at", to);
    free(thread);
    free(place);
    free(lock);
}

void schedule_tell(struct schedule *schedule, const struct notes *notes)
{
    size_t length = 0;
    FILE *to = open_memstream(&schedule->text, &length);
    if (!to)
        return;
    if (schedule->result == SCHEDULE_HANGS)
        put_hang(to, schedule, notes);
    else
        put_reason(to, schedule, notes);
    fclose(to);
}
