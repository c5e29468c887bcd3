#include "deadlock_watch.h"

#include <signal.h>
#include <stdio.h>
#include <stdlib.h>
#include <string.h>

#include "allocation.h"
#include "circle.h"
#include "follow.h"
#include "option_words.h"
#include "report_text.h"

enum { SECOND = 1000000, WATCHED_FOR = 100000 };

bool deadlock_is_due(const struct deadlock *deadlock, long long now)
{
    return deadlock->circle && !deadlock->is_told && now - deadlock->since >= deadlock->patience;
}

void deadlock_end(struct deadlock *deadlock)
{
    free(deadlock->circle);
    *deadlock = (struct deadlock){0};
}

/* Whether threads, or one, can't go on. */
static bool is_circle(const struct report *report)
{
    return report->kind == REPORT_CIRCLE || (report->kind == REPORT_SELF && !report->is_over);
}

static bool waits_for_itself(const struct notes *notes)
{
    for (size_t i = 0; i < notes->events; i++)
        if (notes->event[i].kind == EVENT_AGAIN && !notes->event[i].is_over)
            return true;
    return false;
}

/* The circles of the process as they are told, a text of one's own; NULL where there is none. */
static char *circles_of(struct process *process)
{
    char *text = NULL;
    size_t length = 0;
    FILE *to = open_memstream(&text, &length);
    add_circles(process);
    for (size_t i = 0; to && i < process->reports.count; i++)
        if (is_circle(&process->reports.report[i]))
            report_write(to, &process->reports.report[i], process->run->settings.frames > 1, false);
    if (to)
        fclose(to);
    if (length > 0)
        return text;
    free(text);
    return NULL;
}

/* Whether that thread came to ask for the lock again and again. */
static bool is_repeated_by(const struct single *single, uint32_t lock, long thread)
{
    for (size_t i = 0; i < single->pairs; i++) {
        const struct single_pair *pair = &single->pair[i];
        if (pair->how != SINGLE_REPEATEDLY || pair->asked.serial != lock)
            continue;
        for (size_t told = pair->told; told; told = single->telling[told - 1].before)
            if (single->telling[told - 1].thread == thread)
                return true;
    }
    return false;
}

/* Whether each thread that asked so with a time limit came to do it again and again. Of further ones it isn't known. */
static bool is_repeated(const struct single *single, const struct single_pair *timed)
{
    for (size_t told = timed->told; told; told = single->telling[told - 1].before)
        if (!is_repeated_by(single, timed->asked.serial, single->telling[told - 1].thread))
            return false;
    return !timed->is_further;
}

/* Whether a thread of a circle may wait for the lock with a time limit. */
static bool waits_for_a_time(const struct process *process, const struct report_line *line)
{
    const struct notes *notes = &process->notes;
    for (size_t i = 0; i < notes->single.pairs; i++) {
        const struct single_pair *pair = &notes->single.pair[i];
        const struct single_lock *lock = &pair->asked;
        bool is_it = lock->number == 0 || lock->number > notes->locks
            || strcmp(notes->lock[lock->number - 1].name, line->name) == 0;
        if (pair->how == SINGLE_FOR_A_TIME && is_it && !is_repeated(&notes->single, pair))
            return true;
    }
    return false;
}

/* Such a circle ends by itself. */
static bool may_end(const struct process *process)
{
    for (size_t i = 0; i < process->reports.count; i++) {
        const struct report *report = &process->reports.report[i];
        for (size_t at = 0; report->kind == REPORT_CIRCLE && at < report->lines; at++)
            if (report->line[at].kind == LINE_WAITS && waits_for_a_time(process, &report->line[at]))
                return true;
    }
    return false;
}

/* Whether several threads wait. */
static bool has_circle(const struct process *process)
{
    for (size_t i = 0; i < process->reports.count; i++)
        if (process->reports.report[i].kind == REPORT_CIRCLE)
            return true;
    return false;
}

/* False where the circle may end by itself: it is to be looked at again. */
static bool act(struct process *process)
{
    struct run *run = process->run;
    const char *word = run->settings.on_deadlock;
    int status = 0;
    if (!word || !deadlock_word(word, &status) || strcmp(word, "tell") == 0)
        return true;
    if (may_end(process))
        return false;
    say(&run->output, "%s (process %ld) is ended: %s", process->name, process->recording->process,
        has_circle(process) ? "its threads wait for one another" : "a thread of it waits for a lock that it holds");
    if (status)
        run->deadlock_status = status;
    kill((pid_t)process->recording->process, SIGKILL);
    return true;
}

static void tell_circle(struct process *process, const char *text)
{
    struct run *run = process->run;
    run_has_word(run, process->recording->process);
    tell_report(&run->output, text, strlen(text));
    for (size_t i = 0; i < process->reports.count; i++)
        if (is_circle(&process->reports.report[i]))
            follow_keeps(run, process->recording->name, report_lines(&process->reports.report[i]), copy(""));
}

void deadlock_look(struct process *process, struct deadlock *deadlock, long long now)
{
    bool is_there = process->resolved && (process->notes.pending > 0 || waits_for_itself(&process->notes));
    char *circle = is_there ? circles_of(process) : NULL;
    if (!circle) {
        deadlock_end(deadlock);
        return;
    }
    if (!deadlock->circle || strcmp(deadlock->circle, circle) != 0) {
        deadlock_end(deadlock);
        *deadlock = (struct deadlock){circle, now, process->run->watched ? WATCHED_FOR : SECOND, false, false};
        return;
    }
    if (deadlock_is_due(deadlock, now) && process->run->watched) {
        deadlock->is_told = deadlock->is_over = steered_hangs(process, deadlock->since, now);
    } else if (deadlock_is_due(deadlock, now)) {
        deadlock->is_told = true;
        tell_circle(process, circle);
    }
    if (deadlock->is_told && !deadlock->is_over)
        deadlock->is_over = act(process);
    free(circle);
}

bool deadlock_word(const char *word, int *status)
{
    *status = strcmp(word, "tell") == 0 || strcmp(word, "kill") == 0 ? 0 : exit_word(word);
    return *status >= 0;
}
