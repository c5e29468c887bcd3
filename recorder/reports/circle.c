#include "circle.h"

#include <stdlib.h>
#include <string.h>

#include "allocation.h"
#include "thread_label.h"

/* A line of the last report, of a seat and a lock, at a place of the notes or a site. The heading is let go. */
static struct report_line *add_line(struct process *process, enum line_kind kind, unsigned seat, const char *lock,
    char *heading, size_t spot, const char *site)
{
    struct report_line *line = reports_add_line(&process->reports, kind, heading, spot, site);
    line->seat = seat;
    line->name = copy(lock);
    free(heading);
    return line;
}

/* What the seat holds, a line for each lock. */
static void add_held(struct process *process, unsigned seat, const struct event *thread)
{
    const struct seat *held = &process->state.seat[seat];
    char *name = thread_name(thread);
    for (size_t i = 0; i < held->count; i++) {
        const char *lock = notes_lock(&process->notes, held->held[i].lock)->name;
        char *heading = say_text(" seat %u%s holds \"%s\"", seat, name, lock);
        add_line(process, LINE_HOLDS, seat, lock, heading, held->held[i].spot, NULL);
    }
    free(name);
}

/* Whether the seat has the lock as a reader. */
static bool is_read_by(const struct seat *seat, unsigned lock)
{
    for (size_t i = 0; i < seat->count; i++)
        if (seat->held[i].lock == lock)
            return seat->held[i].shared;
    return false;
}

/*
 * Readers that wait. The verifier's world lets a reader in beside others. One that isn't let in comes behind a writer, who
 * waits for all that read: so it waits for each of these. The writer needn't be in the trace.
 */
struct walk {
    const struct seat *seat; /* by their numbers */
    unsigned path[SEATS_MOST + 1], length;
    bool was_there[SEATS_MOST + 1];
};

/* Whether both are readers. */
static bool is_behind(const struct seat *waits, const struct seat *has)
{
    for (size_t i = 0; i < has->count; i++)
        if (has->held[i].lock == waits->asked)
            return waits->asked_shared && has->held[i].shared;
    return false;
}

/* What a thread holds itself it may acquire again, but as a reader behind a writer. */
static bool is_waited_for(const struct seat *waits, const struct seat *has)
{
    for (size_t i = 0; i < has->count; i++)
        if (has->held[i].lock == waits->asked)
            return has != waits || is_behind(waits, has);
    return false;
}

/* Whether the way on from the seat at its end comes round to its beginning. */
static bool comes_round(struct walk *walk)
{
    unsigned last = walk->path[walk->length - 1];
    for (unsigned next = 1; walk->seat[last].asked && next <= SEATS_MOST; next++) {
        if (!is_waited_for(&walk->seat[last], &walk->seat[next]))
            continue;
        if (next == walk->path[0])
            return true;
        if (walk->was_there[next])
            continue;
        walk->was_there[next] = true;
        walk->path[walk->length++] = next;
        if (comes_round(walk))
            return true;
        walk->length--;
    }
    return false;
}

/* ` seat N waits for "NAME" ..`, and what the seat holds. */
static void add_wait(struct process *process, unsigned seat, unsigned next)
{
    const struct notes *notes = &process->notes;
    const struct seat *waits = &process->state.seat[seat], *has = &process->state.seat[next];
    const struct event *thread = notes_thread(notes, seat, notes->events);
    const char *lock = notes_lock(notes, waits->asked)->name;
    char *label = thread_label(thread), *name = thread_name(notes_thread(notes, next, notes->events));
    char *heading = say_text(" seat %u%s waits for \"%s\" %s seat %u%s", seat, label, lock,
        is_behind(waits, has) ? "behind a writer, who waits for" : "held by", next, name);
    struct report_line *line = add_line(process, LINE_WAITS, seat, lock, heading, waits->asked_at, NULL);
    line->next = next;
    line->is_behind_readers = is_read_by(has, waits->asked);
    add_held(process, seat, thread);
    free(label);
    free(name);
}

/* Each of these seats waits for the next, and the last for the first. */
static void add_seats(struct process *process, const unsigned *seat, size_t seats)
{
    reports_add(&process->reports, REPORT_CIRCLE, "circle:");
    for (size_t i = 0; i < seats; i++)
        if (seat[i] <= SEATS_MOST && seat[(i + 1) % seats] <= SEATS_MOST)
            add_wait(process, seat[i], seat[(i + 1) % seats]);
}

static void add_circle_of_readers(struct process *process)
{
    struct walk *walk = take(sizeof *walk);
    walk->seat = process->state.seat;
    for (unsigned first = 1; first <= SEATS_MOST; first++) {
        memset(walk->was_there, 0, sizeof walk->was_there);
        walk->path[0] = first;
        walk->length = 1;
        if (comes_round(walk)) {
            add_seats(process, walk->path, walk->length);
            break;
        }
    }
    free(walk);
}

/* A seat that waited for a lock that it held, by the note of that number. */
static void add_again(struct process *process, size_t number)
{
    const struct notes *notes = &process->notes;
    const struct event *again = &notes->event[number];
    const struct event *thread = notes_thread(notes, again->seat, number);
    const char *site = again->site ? again->site : "?:0";
    const char *lock = notes_lock(notes, again->lock)->name;
    if (again->seat > SEATS_MOST)
        return;
    char *label = thread_label(thread);
    reports_add(&process->reports, REPORT_SELF, "a thread waited for a lock that it held itself:")->is_over =
        again->is_over;
    char *heading = say_text(" seat %u%s waited for \"%s\"", again->seat, label, lock);
    add_line(process, LINE_WAITS, again->seat, lock, heading, 0, site);
    add_held(process, again->seat, thread);
    free(label);
}

void add_circles(struct process *process)
{
    const struct notes *notes = &process->notes;
    if (!process->state.is_whole)
        return;
    if (notes->pending && process->state.circles > 0)
        add_seats(process, process->state.circle, process->state.circles);
    else if (notes->pending)
        add_circle_of_readers(process);
    for (size_t i = 0; i < notes->events; i++)
        if (notes->event[i].kind == EVENT_AGAIN)
            add_again(process, i);
}
