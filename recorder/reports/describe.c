#include "describe.h"

#include <ctype.h>

#include "allocation.h"

const char *const kinds[KINDS] = {
    [REPORT_REVERSAL] = "reversal",
    [REPORT_DUPLICATE] = "duplicate",
    [REPORT_CIRCLE] = "circle",
    [REPORT_SELF] = "self",
    [REPORT_ERROR] = "error",
    [REPORT_OTHER] = "other",
};

int is_request(const struct report *report, const struct report_line *line)
{
    return line->kind == LINE_LOCK && line == &report->line[report->last];
}

/* The type of the report's lock with that number of a line; empty where there is none. */
static const char *type_at(const struct report *report, size_t number)
{
    const char *type = number > 0 && number < report->lines ? report->line[number].type : NULL;
    return type ? type : "";
}

static size_t count_lines(const struct report *report, enum line_kind kind)
{
    size_t count = 0;
    for (size_t i = 0; i < report->lines; i++)
        count += report->line[i].kind == kind;
    return count;
}

/* The name of the first lock that a line of that kind has. */
static const char *named(const struct report *report, enum line_kind kind)
{
    for (size_t i = 0; i < report->lines; i++)
        if (report->line[i].kind == kind && report->line[i].name)
            return report->line[i].name;
    return "a lock";
}

char *describe(const struct report *report)
{
    switch (report->kind) {
    case REPORT_REVERSAL:
        return say_text("\"%s\" is held, \"%s\" is asked for", type_at(report, report->first),
            type_at(report, report->last));
    case REPORT_DUPLICATE:
        return say_text("One \"%s\" is held, another is asked for", type_at(report, report->last));
    case REPORT_CIRCLE:
        return say_text("%zu threads wait for one another", count_lines(report, LINE_WAITS));
    case REPORT_SELF:
        return say_text("A thread waits for \"%s\", which it holds", named(report, LINE_WAITS));
    case REPORT_ERROR:
        return say_text("%c%s \"%s\"", toupper((unsigned char)*report->line[0].text), report->line[0].text + 1,
            named(report, LINE_HOLDS));
    default:
        return copy(report->lines > 0 && *report->line[0].text ? report->line[0].text : "The recording");
    }
}

/* What the single locks say: what to ask first. Without words that keep the orders apart. */
static const char *question(enum grade grade, bool is_reversal)
{
    if (grade == GRADE_THREADS)
        return "Threads took these very locks in both orders: they deadlock if they do so at once.";
    if (grade == GRADE_ONE_THREAD)
        return "No two threads took these very locks in both orders yet: ask whether a second one can come there, for then "
               "they deadlock.";
    if (grade == GRADE_TYPES)
        return "No single locks were taken both ways: ask whether another run can take them the other way round.";
    return is_reversal
        ? "Ask first whether these places can run in two threads at once: if they can, each thread may come "
          "to wait for the other for good."
        : NULL;
}

/* As question; what kept the orders of the same locks apart in this run comes before all else. */
static char *first_advice(const struct alarm *alarm, bool is_reversal)
{
    bool is_same = alarm->grade == GRADE_THREADS || alarm->grade == GRADE_ONE_THREAD;
    const char *asked = question(alarm->grade, is_reversal);
    if (is_same && alarm->gate)
        return say_text("In this run \"%s\" kept the two orders apart: ask whether all ways to them hold it.",
            alarm->gate);
    if (is_same && alarm->apart != NOT_APART)
        return copy("In this run the two orders couldn't meet: ask whether the program keeps to that.");
    if (is_same && alarm->readers)
        return copy("One waits for readers as a reader: ask whether a writer can come between.");
    if (is_same && alarm->timed)
        return copy("One request ends by itself: look at what the program does when its time is over.");
    return asked ? copy(asked) : NULL;
}

static char *advice_on_reversal(const char *first, const char *last, size_t number)
{
    if (number == 1)
        return say_text("Then change one of them: take \"%s\" before \"%s\" here too, or release \"%s\" before \"%s\" "
                        "is asked for.",
            last, first, first, last);
    return copy("If they never run at once, or a third lock is always held around both, put the line below into the "
                "file of --ignore.");
}

static char *advice_on_duplicate(const char *type, size_t number)
{
    if (number == 0)
        return say_text("Ask first in which order another thread may take two locks of \"%s\": the other way round is a "
                        "deadlock, and no order of types shows it.",
            type);
    if (number == 1)
        return copy("If nothing rules that, take them in an order of their own, by their addresses say, or make them in "
                    "two places, which gives them two types.");
    return copy("If there is such a rule, put the line below into the file of --ignore.");
}

static char *advice_on_circle(size_t number)
{
    if (number == 0)
        return copy("Unless one of them waits for a limited time, none goes on: this is a deadlock that has happened, "
                    "not one that may.");
    if (number == 1)
        return copy("Let one of them take its locks in the order of the others, or release what it holds before it asks "
                    "for the next.");
    return copy("Begin with the reports that name the same locks: they say where each order comes from.");
}

static char *advice_on_self(const char *lock, size_t number)
{
    if (number == 0)
        return say_text("The thread holds \"%s\" and asks for it again: unless its wait is limited, it never ends.",
            lock);
    if (number == 1)
        return copy("Release it before the call, or part the function into one that locks and one that expects the lock "
                    "to be held.");
    return copy("If the second acquisition is meant, make the mutex a recursive one.");
}

static char *advice_on_error(const char *lock, size_t number)
{
    if (number == 0)
        return say_text("Nobody may ever get \"%s\" again, or what it guards isn't guarded.", lock);
    if (number == 1)
        return copy("Release a lock before its thread ends, and before it is destroyed, freed or made anew; hold the "
                    "mutex of a condition where that is waited for.");
    return copy("If it is meant, --alarms no-errors tells nothing of such.");
}

char *advice(const struct report *report, const struct alarm *alarm, size_t number)
{
    bool is_reversal = report->kind == REPORT_REVERSAL;
    char *first =
        number == 0 && (is_reversal || report->kind == REPORT_DUPLICATE) ? first_advice(alarm, is_reversal) : NULL;
    if (first)
        return first;
    switch (report->kind) {
    case REPORT_REVERSAL:
        return advice_on_reversal(type_at(report, report->first), type_at(report, report->last), number);
    case REPORT_DUPLICATE:
        return advice_on_duplicate(type_at(report, report->last), number);
    case REPORT_CIRCLE:
        return advice_on_circle(number);
    case REPORT_SELF:
        return advice_on_self(named(report, LINE_WAITS), number);
    case REPORT_ERROR:
        return advice_on_error(named(report, LINE_HOLDS), number);
    default:
        return NULL;
    }
}

static size_t add_type(const char **type, size_t count, size_t room, const char *name)
{
    if (count < room && name && *name && !has_text(type, count, name))
        type[count++] = name;
    return count;
}

size_t report_types(const struct report *report, const char **type, size_t room)
{
    size_t count = 0;
    for (size_t i = 0; i < report->lines; i++) {
        const struct report_line *line = &report->line[i];
        if (line->kind == LINE_LOCK || line->kind == LINE_STEP)
            count = add_type(type, count, room, line->type);
        if (line->kind == LINE_STEP)
            count = add_type(type, count, room, line->other);
        if ((line->kind == LINE_WAITS || line->kind == LINE_HOLDS) && line->name)
            count = add_type(type, count, room, line->name);
    }
    return count;
}
