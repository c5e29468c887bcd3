#include "alarms.h"

#include <stdio.h>
#include <stdlib.h>
#include <string.h>

#include "allocation.h"
#include "place_words.h"

const struct alarms_wanted alarms_usual = {.least = GRADE_ONE_THREAD};

static int words(const struct alarm *alarm)
{
    return (alarm->gate != NULL) + alarm->readers + alarm->timed + (alarm->apart != NOT_APART);
}

bool alarm_has_word(const struct alarm *alarm)
{
    return words(alarm) > 0;
}

/* What isn't known may be the worst of what it stands for. */
int alarm_mildness(const struct alarm *alarm)
{
    static const int steps[] =
        {[GRADE_THREADS] = 0, [GRADE_UNKNOWN] = 1, [GRADE_NONE] = 2, [GRADE_ONE_THREAD] = 3, [GRADE_TYPES] = 4};
    return 8 * steps[alarm->grade] + words(alarm);
}

/* The threads of the circle. */
static void write_threads(FILE *to, const struct alarm *alarm)
{
    size_t all = alarm->threads + (alarm->others > 0);
    if (all == 1 && alarm->threads == 1) {
        fprintf(to, "thread %ld alone", alarm->thread[0]);
        return;
    }
    fputs(alarm->threads == 0 ? "" : alarm->threads == 1 ? "thread " : "threads ", to);
    for (size_t i = 0; i < alarm->threads; i++)
        fprintf(to, "%s%ld", i == 0 ? "" : i + 1 < all ? ", " : " and ", alarm->thread[i]);
    if (alarm->others > 0)
        fprintf(to, "%s%s", alarm->threads == 0 ? "" : " and ", alarm->others == 1 ? "another one" : "others");
    if (alarm->twice)
        fprintf(to, ", of which %ld took two orders", alarm->twice);
}

/* What keeps the orders that are closest to a deadlock from it. */
static void write_mildness(FILE *to, const struct alarm *alarm)
{
    static const char *const apart[] = {
        [APART_IN_TIME] = "one thread had ended, or wasn't made yet, when the other did so",
        [APART_AT_FIRST] = "both were done before there was another thread",
        [APART_ONE_AT_FIRST] = "one was done before there was another thread",
        [APART_BY_WAITS] = "each one had its lock when its wait for a condition began",
        [APART_BY_LOCK] = "one took its lock under the one that the other kept in its wait"};
    if (alarm->gate)
        fprintf(to, "; gate: each time \"%s\" was held", alarm->gate);
    if (alarm->readers)
        fputs("; readers: one waits for readers as a reader", to);
    if (alarm->timed)
        fputs("; timed: one was asked for with a time limit", to);
    if (alarm->apart)
        fprintf(to, "; apart: %s", apart[alarm->apart]);
}

static void write_unknown(FILE *to, enum unknown unknown)
{
    static const char *const why[] = {[UNKNOWN_MISSING] = "there were more orders of such locks than are kept",
        [UNKNOWN_UNASKED] = "the verifier isn't built, and a trial of it isn't asked; make builds it",
        [UNKNOWN_UNANSWERED] = "the verifier didn't answer; a smaller part of the work may show it"};
    fprintf(to, "single locks: not known, %s", why[unknown]);
}

/* Where the orders of the circle were taken that aren't the report's. */
static void write_elsewhere(FILE *to, const struct alarm *alarm)
{
    const char *before = !alarm->has_own ? "; taken" : alarm->steps > 2 ? "; the others" : "; the other way";
    for (size_t i = 0; i < alarm->elsewheres; i++) {
        char *place = i > 0 ? place_name(alarm->elsewhere[i]) : place_told(alarm->elsewhere[i]);
        fprintf(to, "%s %s", i > 0 ? "," : before, place);
        free(place);
    }
}

static void write_alarm(FILE *to, const struct alarm *alarm)
{
    switch (alarm->grade) {
    case GRADE_NONE:
        return;
    case GRADE_UNKNOWN:
        write_unknown(to, alarm->unknown);
        return;
    case GRADE_TYPES:
        fputs(alarm->of_one_type ? "single locks: one order: none of these locks was ever taken the other way round"
                                 : "single locks: one order only for any two locks: types alone",
            to);
        return;
    case GRADE_ONE_THREAD:
    case GRADE_THREADS:
        fprintf(to, "single locks: %s, the same locks, ",
            alarm->is_smaller      ? "all orders of a smaller circle of these types"
                : alarm->steps > 2 ? "all orders of the circle"
                                   : "both orders");
        write_threads(to, alarm);
        break;
    }
    write_mildness(to, alarm);
    write_elsewhere(to, alarm);
}

char *alarm_text(const struct alarm *alarm)
{
    char *text = NULL;
    size_t length = 0;
    FILE *to = open_memstream(&text, &length);
    if (!to)
        return copy("");
    write_alarm(to, alarm);
    fclose(to);
    return text;
}

static bool is_word(const char *at, size_t length, const char *word)
{
    return length == strlen(word) && memcmp(at, word, length) == 0;
}

static bool take_word(const char *at, size_t length, struct alarms_wanted *wanted)
{
    if (is_word(at, length, "all"))
        wanted->least = GRADE_NONE;
    else if (is_word(at, length, "locks"))
        wanted->least = GRADE_ONE_THREAD;
    else if (is_word(at, length, "threads"))
        wanted->least = GRADE_THREADS;
    else if (is_word(at, length, "gate"))
        wanted->not_gated = true;
    else if (is_word(at, length, "readers"))
        wanted->not_readers = true;
    else if (is_word(at, length, "timed"))
        wanted->not_timed = true;
    else if (is_word(at, length, "apart"))
        wanted->not_apart = true;
    else if (is_word(at, length, "confirmed"))
        wanted->confirmed = true;
    else
        return false;
    return true;
}

bool alarms_words(const char *words, struct alarms_wanted *wanted)
{
    for (;;) {
        size_t length = strcspn(words, ",");
        if (!take_word(words, length, wanted))
            return false;
        if (!words[length])
            return true;
        words += length + 1;
    }
}

bool alarm_counts(const struct alarms_wanted *wanted, const struct alarm *alarm)
{
    if (alarm->grade <= GRADE_UNKNOWN)
        return true;
    return alarm->grade >= wanted->least && !(wanted->not_gated && alarm->gate)
        && !(wanted->not_readers && alarm->readers) && !(wanted->not_timed && alarm->timed)
        && !(wanted->not_apart && alarm->apart);
}
