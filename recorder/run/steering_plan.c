#include "steering_plan.h"

#include <fcntl.h>
#include <stdlib.h>
#include <string.h>
#include <sys/stat.h>
#include <unistd.h>

#include "allocation.h"
#include "confirm.h"
#include "files.h"
#include "write_all.h"

enum { PAUSE_MS = 50, BACK_LEAST_MS = 100, BACK_MOST_MS = 1500 };

/* Where the first lock of the step was taken; 0 where that isn't known. */
static size_t held_at(const struct notes *notes, const struct report_line *step)
{
    for (size_t i = 0; i < notes->pairs.count; i++) {
        const struct lock_pair *pair = &notes->pairs.pair[i];
        if (pair->asked_at == step->spot && strcmp(notes_lock(notes, pair->held)->type, step->type) == 0
            && strcmp(notes_lock(notes, pair->asked)->type, step->other) == 0)
            return pair->held_at;
    }
    return 0;
}

void plan_finds_first_locks(struct process *process)
{
    for (size_t i = 0; i < process->reports.count; i++) {
        const struct report *report = &process->reports.report[i];
        for (size_t at = 0; at < report->lines; at++)
            if (report->line[at].kind == LINE_STEP)
                report->line[at].held_spot = held_at(&process->notes, &report->line[at]);
    }
}

/* False where the name is too long. */
static bool fill_code(struct plan_code *code, const struct code_place *place)
{
    if (!place->object)
        return true;
    const char *name = place->is_named ? place->object : file_base(place->object);
    if (strlen(name) >= sizeof code->name)
        return false;
    code->offset = place->offset;
    code->is_named = place->is_named;
    memcpy(code->name, name, strlen(name) + 1);
    return true;
}

static void fill_chain(struct plan_chain *chain, const struct planned_place *place)
{
    for (size_t i = 0; i < place->calls && i < PLAN_FRAMES; i++) {
        struct plan_frame *frame = &chain->frame[i];
        if (!fill_code(&frame->code, &place->call[i].code) || !fill_code(&frame->rest, &place->call[i].rest))
            break;
        chain->frames++;
    }
}

static bool are_of_one_place(const struct plan_order *one, const struct plan_order *other)
{
    return memcmp(&one->hold, &other->hold, sizeof one->hold) == 0
        && memcmp(&one->ask, &other->ask, sizeof one->ask) == 0;
}

static bool are_equal(const struct plan_order *one, const struct plan_order *other)
{
    return are_of_one_place(one, other) && memcmp(&one->hold_lock, &other->hold_lock, sizeof one->hold_lock) == 0
        && memcmp(&one->ask_lock, &other->ask_lock, sizeof one->ask_lock) == 0;
}

/* The plan is full: an order of the same place stands for that one, too, and counts with any locks. */
static void widen(struct plan *plan, const struct plan_order *order)
{
    for (uint32_t i = 0; i < plan->orders; i++)
        if (are_of_one_place(&plan->order[i], order)) {
            memset(&plan->order[i].hold_lock, 0, sizeof plan->order[i].hold_lock);
            memset(&plan->order[i].ask_lock, 0, sizeof plan->order[i].ask_lock);
            return;
        }
}

void planned_begins(struct planned *planned)
{
    memset(planned, 0, sizeof *planned);
    planned->plan.mark = PLAN_MARK;
}

void planned_adds(struct planned *planned, const struct planned_place *hold, const struct planned_place *ask)
{
    struct plan *plan = &planned->plan;
    struct plan_order *order = take(sizeof *order);
    fill_chain(&order->hold, hold);
    fill_chain(&order->ask, ask);
    fill_code(&order->hold_lock, &hold->lock);
    fill_code(&order->ask_lock, &ask->lock);
    uint32_t at = 0;
    while (at < plan->orders && !are_equal(&plan->order[at], order))
        at++;
    if (at == PLAN_ORDERS)
        widen(plan, order);
    if (order->ask.frames > 0 && at == plan->orders && at < PLAN_ORDERS) {
        plan->order[at] = *order;
        planned->ask_site[at] = ask->site ? ask->site : "?:0";
        plan->orders++;
        if (at == 0 || ask->at < planned->first_at) {
            planned->first = at;
            planned->first_at = ask->at;
        }
        if (ask->at > planned->last_at)
            planned->last_at = ask->at;
    }
    free(order);
}

static struct planned_place place_of_spot(const struct notes *notes, size_t number, const char *type)
{
    struct planned_place place = {.lock = notes_variable(notes, type)};
    const struct spot *spot = notes_spot(notes, number);
    const struct frames *frames = notes_frames(notes, number);
    if (!spot)
        return place;
    place.site = spot->site;
    place.at = spot->at;
    if (frames) {
        place.calls = frames->calls;
        memcpy(place.call, frames->call, sizeof place.call);
    }
    return place;
}

static void add_step(struct planned *planned, const struct notes *notes, const struct report_line *step)
{
    struct planned_place hold = place_of_spot(notes, step->held_spot, step->type);
    struct planned_place ask = place_of_spot(notes, step->spot, step->other);
    planned_adds(planned, &hold, &ask);
}

static void add_last(struct planned *planned, const struct notes *notes, const struct report *report)
{
    const struct report_line *first = &report->line[report->first], *last = &report->line[report->last];
    struct planned_place hold = {0}, ask = place_of_spot(notes, last->spot, last->type);
    if (report->first)
        hold = place_of_spot(notes, first->spot, first->type);
    planned_adds(planned, &hold, &ask);
}

bool planned_of(struct planned *planned, const struct report *report, const struct notes *notes)
{
    planned_begins(planned);
    if ((report->kind != REPORT_REVERSAL && report->kind != REPORT_DUPLICATE) || !report->last)
        return false;
    for (size_t i = 0; i < report->lines; i++)
        if (report->line[i].kind == LINE_STEP)
            add_step(planned, notes, &report->line[i]);
    add_last(planned, notes, report);
    return planned->plan.orders > 0;
}

static void forget_counts(struct plan *plan)
{
    for (uint32_t i = 0; i < PLAN_ORDERS; i++) {
        plan->order[i].holds_back = 0;
        memset(&plan->order[i].asked, 0, sizeof plan->order[i].asked);
    }
    plan->met = plan->begun = plan->all_sleep = plan->processes = 0;
}

/*
 * First a thread pauses before its second lock; then one is held back before the first lock, too, where the order came
 * first; then where any did. What is left is noise. Where the plan has one place, there is nothing to hold back.
 */
void planned_for(struct planned *planned, unsigned run)
{
    struct plan *plan = &planned->plan;
    unsigned long apart = planned->last_at - planned->first_at, back = apart + apart / 2 + PAUSE_MS;
    bool is_steered = run == 1 || (run <= 3 && plan->orders > 1);
    forget_counts(plan);
    plan->pause_ms = is_steered ? PAUSE_MS : 0;
    plan->noise_ms = is_steered ? 0 : CONFIRM_NOISE_MS;
    plan->back_ms = (uint32_t)(back < BACK_LEAST_MS ? BACK_LEAST_MS : back > BACK_MOST_MS ? BACK_MOST_MS : back);
    for (uint32_t i = 0; i < plan->orders; i++)
        plan->order[i].holds_back = plan->orders > 1 && is_steered && (run == 3 || (run == 2 && i == planned->first));
}

struct plan plan_of_noise(uint32_t milliseconds)
{
    return (struct plan){.mark = PLAN_MARK, .noise_ms = milliseconds};
}

bool plan_write(const struct plan *plan, const char *path)
{
    int file = open(path, O_WRONLY | O_CREAT | O_EXCL | O_CLOEXEC, 0600);
    if (file < 0)
        return false;
    bool is_written = write_all(file, (const char *)plan, sizeof *plan) && fchmod(file, 0666) == 0;
    return close(file) == 0 && is_written;
}

void plan_read(struct plan *plan, const char *path)
{
    struct plan *found = take(sizeof *found);
    int file = open(path, O_RDONLY | O_CLOEXEC);
    if (file >= 0 && read(file, found, sizeof *found) == (ssize_t)sizeof *found && found->mark == PLAN_MARK)
        *plan = *found;
    if (file >= 0)
        close(file);
    free(found);
}
