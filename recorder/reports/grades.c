#include "grades.h"

#include <stdio.h>
#include <stdlib.h>
#include <string.h>

#include "finding_lines.h"
#include "format.h"
#include "schedules.h"

/* A report, and in how many pairs the locks of the type are held that it asks for: so much there is to look through, and more. */
struct asked {
    long long line;
    size_t pairs;
};

/* Those of few pairs come first: so one that takes long keeps no other from its answer. */
static int by_pairs(const void *left, const void *right)
{
    const struct asked *one = left, *other = right;
    if (one->pairs != other->pairs)
        return one->pairs < other->pairs ? -1 : 1;
    return one->line < other->line ? -1 : one->line > other->line;
}

/* The name of a type is its number. */
static size_t pairs_of(const struct single *single, const char *type)
{
    size_t pairs = 0;
    unsigned long number = strtoul(type, NULL, 10);
    for (size_t i = 0; i < single->pairs; i++)
        pairs += single->pair[i].held.type == number;
    return pairs;
}

/* Whether the report is of an order, and its grade is wanted. */
static bool is_wanted(const struct grades_wanted *wanted, const char *kind, const char *held, const char *asked)
{
    const struct notes *notes = wanted->notes;
    return (strcmp(kind, "reversal") == 0 || strcmp(kind, "duplicate") == 0)
        && (wanted->of_ignored
            || why_ignored(&notes->ignored, notes_type(notes, held), notes_type(notes, asked)) == NOT_IGNORED);
}

/* The reports of that text of which grades are asked for. */
static struct asked *asked_of(const struct grades_wanted *wanted, const char *told, const char *end, size_t *count)
{
    struct texts *texts = texts_new();
    struct asked *asked = NULL;
    size_t room = 0;
    const char *after;
    for (; told < end && (after = memchr(told, '\n', (size_t)(end - told))) != NULL; told = after + 1) {
        if (!IS_FINDING(told, "report"))
            continue;
        const struct value *report = json_read(texts_copy(texts, told, (size_t)(after - told)), texts);
        const char *type = words_of(value_of(report, "asked"), "type");
        if (is_wanted(wanted, words_of(report, "kind"), words_of(value_of(report, "held"), "type"), type))
            ADD(asked, *count, room) = (struct asked){number_of(report, "line"), pairs_of(&wanted->notes->single, type)};
    }
    texts_end(texts);
    return asked;
}

size_t grades_ask(FILE *to, const struct grades_wanted *wanted, const char *told, size_t length)
{
    const struct single *single = &wanted->notes->single;
    size_t count = 0;
    if (wanted->patience == 0 || single->pairs == 0)
        return 0;
    struct asked *asked = asked_of(wanted, told, told + length, &count);
    if (count > 0)
        qsort(asked, count, sizeof *asked, by_pairs);
    if (count > 0 && single->lost > 0)
        fprintf(to, WORD_ASKED " 0 " WORD_VERSION " %d " WORD_MISSED " seats 0 types 0 locks 0 held 0 log %lu\n",
            FORMAT_VERSION, single->lost);
    for (size_t i = 0; i < count; i++)
        fprintf(to, "grade %lld\n", asked[i].line);
    free(asked);
    return count;
}

/* The threads, locks and places of a circle. Each that does something waits for what the next one holds. */

/* A third thread may stand for a further one: then it can't be one that is there. */
static void add_thread(struct alarm *alarm, const struct fact *fact)
{
    size_t at = 0;
    while (at < alarm->threads && alarm->thread[at] != fact->thread)
        at++;
    if (at == ALARM_THREADS || (at < alarm->threads && fact->is_further))
        alarm->others++;
    else if (at == alarm->threads)
        alarm->thread[alarm->threads++] = fact->thread;
}

static const char *name_of(const struct notes *notes, const struct value *lock)
{
    const char *name = notes_lock(notes, (unsigned)number_of(lock, "lock"))->name;
    return name ? name : "?";
}

static bool is_reports_own(const struct notes *notes, const struct report *report, const struct value *does)
{
    return strcmp(name_of(notes, value_of(does, "held")), report->line[report->first].name) == 0
        && strcmp(name_of(notes, value_of(does, "asked")), report->line[report->last].name) == 0;
}

static void add_place(struct alarm *alarm, const struct single *single, const struct value *does)
{
    const char *site = single_site(single, (uint32_t)number_of(does, "place"));
    if (site && alarm->elsewheres < ALARM_THREADS && !has_text(alarm->elsewhere, alarm->elsewheres, site))
        alarm->elsewhere[alarm->elsewheres++] = site;
}

static bool is_shared(const struct value *lock)
{
    return strcmp(words_of(lock, "mode"), "shared") == 0;
}

static struct single_lock lock_of(const struct value *does, const char *name)
{
    const struct value *lock = value_of(does, name);
    return (struct single_lock){.serial = (uint32_t)number_of(lock, "serial"), .shared = is_shared(lock)};
}

static struct fact fact_of(const struct single *single, const struct value *does)
{
    static const char *const hows[] =
        {[SINGLE_PLAINLY] = "plain", [SINGLE_FOR_A_TIME] = "timed", [SINGLE_REPEATEDLY] = "repeated", [SINGLE_AS_A_WAIT_ENDS] = "wait"};
    const char *how = words_of(does, "how");
    struct single_pair pair = {.held = lock_of(does, "held"),
        .asked = lock_of(does, "asked"),
        .under = number_of(does, "under")};
    while (pair.how < SINGLE_AS_A_WAIT_ENDS && strcmp(how, hows[pair.how]) != 0)
        pair.how++;
    return (struct fact){.pair = single_pair_like(single, &pair),
        .thread = number_of(does, "thread"),
        .is_known = number_of(does, "known"),
        .is_further = number_of(does, "further"),
        .is_at_once = number_of(does, "first") == number_of(does, "last")};
}

/* The facts are the report's, as long as the file has them all. */
static void add_circle(const struct notes *notes, struct report *report, const struct value *circle)
{
    struct alarm *alarm = &report->alarm;
    size_t room = 0;
    for (const struct value *does = circle; does; does = does->next) {
        struct fact fact = fact_of(&notes->single, does);
        add_thread(alarm, &fact);
        for (size_t before = 0; fact.is_known && before < report->facts; before++)
            if (report->fact[before].is_known && report->fact[before].thread == fact.thread)
                alarm->twice = fact.thread;
        bool is_own = is_reports_own(notes, report, does);
        alarm->has_own |= is_own;
        if (alarm->of_one_type && !is_own)
            add_place(alarm, &notes->single, does);
        ADD(report->fact, report->facts, room) = fact;
    }
}

/* The lock of that number that it held: the first is that of its pair. */
static const struct value *had(const struct value *does, size_t number)
{
    const struct value *lock = number == 0 ? value_of(does, "held") : list_of(does, "besides");
    while (lock && number-- > 1)
        lock = lock->next;
    return lock;
}

/* A lock that both had, one of them not as a reader; NULL where there is none. */
static const char *common(const struct notes *notes, const struct value *one, const struct value *other)
{
    const struct value *lock, *same;
    for (size_t i = 0; (lock = had(one, i)) != NULL; i++)
        for (size_t j = 0; (same = had(other, j)) != NULL; j++)
            if (number_of(lock, "serial") == number_of(same, "serial") && !(is_shared(lock) && is_shared(same)))
                return name_of(notes, number_of(lock, "lock") > 0 ? lock : same);
    return NULL;
}

/* The name of the lock that keeps the circle from closing. */
static const char *gate_of(const struct notes *notes, const struct value *circle)
{
    const char *gate = NULL;
    for (const struct value *other = circle; other; other = other->next)
        for (const struct value *one = circle; one != other && !gate; one = one->next)
            gate = common(notes, one, other);
    return gate ? gate : "?";
}

static enum apart apart_of(const struct value *circle)
{
    size_t first = 0, all = 0;
    for (const struct value *does = circle; does; does = does->next, all++)
        first += number_of(does, "last") == 0;
    return first == 0 ? APART_IN_TIME : first < all ? APART_ONE_AT_FIRST : APART_AT_FIRST;
}

static enum apart waits_of(const struct value *circle)
{
    for (const struct value *does = circle; does; does = does->next)
        if (strcmp(words_of(does, "how"), "wait") != 0)
            return APART_BY_LOCK;
    return APART_BY_WAITS;
}

static void add_reason(struct alarm *alarm, const struct notes *notes, const struct value *circle, const char *reason)
{
    if (strcmp(reason, "gate") == 0)
        alarm->gate = gate_of(notes, circle);
    alarm->readers |= strcmp(reason, "readers") == 0;
    alarm->timed |= strcmp(reason, "timed") == 0;
    if (strcmp(reason, "apart") == 0)
        alarm->apart = apart_of(circle);
    if (strcmp(reason, "waits") == 0 && !alarm->apart)
        alarm->apart = waits_of(circle);
}

/* What is said of the circle. */
static void tell_circle(struct alarm *alarm, const struct notes *notes, const struct report *report,
    const struct value *finding)
{
    size_t types = (size_t)number_of(finding, "types");
    alarm->grade = alarm->twice ? GRADE_ONE_THREAD : GRADE_THREADS;
    alarm->is_smaller = report->facts < types;
    alarm->steps = alarm->is_smaller ? types : report->facts;
    for (const struct value *reason = list_of(finding, "reasons"); reason; reason = reason->next)
        add_reason(alarm, notes, list_of(finding, "circle"), reason->text ? reason->text : "");
}

static bool is_of_orders(const struct report *report)
{
    return (report->kind == REPORT_REVERSAL || report->kind == REPORT_DUPLICATE) && report->first && report->last;
}

/* The report that was told at that line; NULL where none was. */
static struct report *report_at(struct reports *reports, long long line)
{
    for (size_t i = 0; i < reports->count; i++)
        if (reports->report[i].told_at == line && is_of_orders(&reports->report[i]))
            return &reports->report[i];
    return NULL;
}

void grade_read(struct reports *reports, const struct value *finding)
{
    const char *grade = words_of(finding, "grade");
    const struct value *circle = list_of(finding, "circle");
    struct report *report = report_at(reports, number_of(finding, "line"));
    if (!report)
        return;
    report->alarm = (struct alarm){.of_one_type = report->kind == REPORT_DUPLICATE};
    report->facts = 0;
    if (circle) {
        add_circle(reports->notes, report, circle);
        tell_circle(&report->alarm, reports->notes, report, finding);
    } else if (strcmp(grade, "types") == 0 || strcmp(grade, "unknown") == 0) {
        report->alarm.grade = *grade == 't' ? GRADE_TYPES : GRADE_UNKNOWN;
    }
}

/* How threads come to hang: for each report by whose grade the same locks were taken both ways. */
static void find_schedules(struct reports *reports, const char *forecaster, bool briefly)
{
    struct circle *circle = take((reports->count + 1) * sizeof *circle);
    size_t circles = 0;
    for (size_t i = 0; i < reports->count; i++) {
        struct report *report = &reports->report[i];
        if (report->alarm.grade >= GRADE_ONE_THREAD)
            circle[circles++] = (struct circle){report, take((report->facts + 1) * sizeof(void *))};
    }
    schedules_find(reports->notes, circle, circles, forecaster, briefly);
    for (size_t i = 0; i < circles; i++)
        free(circle[i].used);
    free(circle);
}

void grade_reports(struct reports *reports, const char *forecaster, bool briefly)
{
    if (reports->are_graded || reports->notes->single.pairs == 0)
        return;
    reports->are_graded = true;
    for (size_t i = 0; i < reports->count; i++) {
        struct report *report = &reports->report[i];
        if (is_of_orders(report) && report->alarm.grade == GRADE_NONE)
            report->alarm = (struct alarm){.grade = GRADE_UNKNOWN,
                .unknown = forecaster ? UNKNOWN_UNANSWERED : UNKNOWN_UNASKED,
                .of_one_type = report->kind == REPORT_DUPLICATE};
    }
    find_schedules(reports, forecaster, briefly);
}
