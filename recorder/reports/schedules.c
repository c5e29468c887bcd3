#include "schedules.h"

#include <inttypes.h>
#include <stdlib.h>
#include <string.h>

#include "allocation.h"
#include "errand_trace.h"
#include "forecast_answer.h"
#include "schedule.h"
#include "verdict.h"

/* Circles of more requests the program leaves out. */
enum { PATIENCE = 30000, BRIEF_PATIENCE = 2000, TELLINGS_MOST = 16, FACTS_MOST = 8 };

/* What is known before it is asked: what keeps the circle from closing by the report's own words. */
static enum schedule_result result_of(const struct circle *circle)
{
    const struct alarm *alarm = &circle->report->alarm;
    if (alarm->apart || alarm->gate || alarm->readers)
        return alarm->apart ? SCHEDULE_APART : alarm->gate ? SCHEDULE_GATE : SCHEDULE_READERS;
    return circle->report->facts > FACTS_MOST ? SCHEDULE_UNDECIDED : SCHEDULE_UNANSWERED;
}

/* The errands by which the fact's thread came to its request: the last ones that were told. How many there are. */
static size_t add_fact(struct errand_trace *trace, const struct single *single, size_t circle, const struct fact *fact,
    bool *is_cut)
{
    size_t added = 0, last = fact->pair ? fact->pair->told : 0;
    for (size_t told = last; told && added < TELLINGS_MOST; told = single->telling[told - 1].before) {
        const struct single_telling *telling = &single->telling[told - 1];
        if (telling->thread != fact->thread)
            continue;
        if (errand_trace_adds(trace, single, circle, fact, telling))
            added++;
        else
            *is_cut = true;
    }
    return added;
}

/* Its errands. Where one of the facts has none, they are taken out, and its schedule says why. */
static void add_circle(struct errand_trace *trace, const struct single *single, const struct circle *circle, size_t number)
{
    size_t seats = trace->seats;
    for (size_t i = 0; i < circle->report->facts; i++) {
        bool is_cut = false;
        if (add_fact(trace, single, number, &circle->report->fact[i], &is_cut) > 0)
            continue;
        trace->seats = seats;
        circle->report->schedule->result = is_cut ? SCHEDULE_CUT : SCHEDULE_UNTOLD;
        return;
    }
}

static void ask(struct errand_trace *trace, const struct notes *notes, const struct circle *circle,
    const char *forecaster, bool briefly)
{
    char *text = NULL;
    size_t length = 0;
    FILE *to = trace->seats > 0 ? open_memstream(&text, &length) : NULL;
    if (!to)
        return;
    errand_trace_write(trace, to);
    fclose(to);
    char *answer = verdict_on_text(forecaster, "forecast", text, length, briefly ? BRIEF_PATIENCE : PATIENCE);
    if (answer) {
        errand_trace_finds(trace, &notes->single);
        schedules_read(trace, notes, circle, answer, strlen(answer));
    }
    free(answer);
    free(text);
}

/* For any further circle. */
static bool has_room(const struct errand_trace *trace)
{
    const size_t most = FACTS_MOST * TELLINGS_MOST;
    return trace->seats + most <= ERRAND_SEATS && trace->locks + most * (ERRAND_STEPS + 1) <= ERRAND_LOCKS;
}

/* Those of a few circles are asked at once: as many as have room. */
static size_t ask_some(const struct notes *notes, const struct circle *circle, size_t count, const char *forecaster,
    bool briefly)
{
    struct errand_trace trace = {0};
    size_t done = 0;
    for (; done < count && has_room(&trace); done++)
        if (circle[done].report->schedule->result == SCHEDULE_UNANSWERED)
            add_circle(&trace, &notes->single, &circle[done], done);
    ask(&trace, notes, circle, forecaster, briefly);
    errand_trace_end(&trace);
    return done;
}

/*
 * Whether the threads may not have been there at one time when they came so: the report's grade is of all times at which each one
 * did it, and when a further one did isn't known.
 */
static bool may_be_apart(const struct circle *circle)
{
    const struct report *report = circle->report;
    bool is_at_once = true;
    if (report->schedule->result != SCHEDULE_HANGS || report->schedule->copies)
        return false;
    for (size_t i = 0; i < report->facts; i++) {
        if (report->fact[i].is_further)
            return false;
        is_at_once &= report->fact[i].is_at_once;
    }
    return !is_at_once;
}

/*
 * A recording of locks of one type, with one report; what is known of threads; and each errand of the circle, as if its thread
 * had done so then and never else.
 */
static void write_errands(FILE *to, const struct single *single, const struct circle *circle)
{
    fputs("name 1 \"1\"\ninit 1 mtx - 1 1\ninit 1 mtx - 1 2\ncheck 1 1 x n 0\nlock 1 1\ncheck 1 2 x n 0\n", to);
    if (single->lives.length > 0)
        fwrite(single->lives.bytes, 1, single->lives.length, to);
    for (size_t i = 0; i < circle->report->facts; i++) {
        const struct single_telling *used = circle->used[i];
        const struct single_pair *pair = circle->report->fact[i].pair;
        if (used)
            fprintf(to, "pair 0 %ld %" PRIu32 " 0 0 0 %" PRIu32 " 1 x 0 %" PRIu32 " 1 x\n", used->thread, used->when,
                pair->held.serial, pair->asked.serial);
    }
    fputs("grade 6\n", to);
}

/* Whether the errands of its schedule were at different times, by the grade of these. */
static bool is_apart(const struct notes *notes, const struct circle *circle, const char *program, bool briefly)
{
    char *text = NULL;
    size_t length = 0;
    FILE *to = may_be_apart(circle) ? open_memstream(&text, &length) : NULL;
    if (!to)
        return false;
    write_errands(to, &notes->single, circle);
    fclose(to);
    char *told = verdict_on_text(program, "findings", text, length, briefly ? BRIEF_PATIENCE : PATIENCE);
    bool is = told && strstr(told, "\"apart\"");
    free(told);
    free(text);
    return is;
}

void schedules_find(const struct notes *notes, const struct circle *circle, size_t count, const char *forecaster,
    bool briefly)
{
    for (size_t i = 0; i < count; i++) {
        circle[i].report->schedule = take(sizeof(struct schedule));
        circle[i].report->schedule->result = result_of(&circle[i]);
    }
    for (size_t done = 0; done < count && forecaster;)
        done += ask_some(notes, circle + done, count - done, forecaster, briefly);
    for (size_t i = 0; i < count; i++) {
        schedule_tell(circle[i].report->schedule, notes);
        if (is_apart(notes, &circle[i], forecaster, briefly))
            schedule_is_apart(circle[i].report->schedule);
    }
}
