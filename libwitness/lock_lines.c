/*
 * What the library tells of locks, line by line. The verifier says which locks, by numbers and names. The words are those
 * of `witness replay`, but for places: most have no line, and few people read offsets, so the function comes first. Beside
 * such a place the name of a type stands once.
 */
#include "lock_lines.h"

#include "judge_verifier.h"
#include "names.h"

#include <stdarg.h>
#include <stdio.h>
#include <string.h>

void put_words(struct lines *lines, const char *format, ...)
{
    size_t room = lines->length < lines->room ? lines->room - lines->length : 0;
    va_list words;
    va_start(words, format);
    int length = vsnprintf(room > 0 ? lines->to + lines->length : NULL, room, format, words);
    va_end(words);
    lines->length += length > 0 ? (size_t)length : 0;
}

void put_place(struct lines *lines, uint32_t place)
{
    char name[PLACE_ROOM];
    name_site(name, place);
    put_words(lines, "%s %s", is_place_in_code(place) ? "in" : "@", name);
}

/* A lock as it is told. All are mutexes or locks with readers. */
struct told {
    char name[NAME_ROOM], of[NAME_ROOM];
    uint32_t number; /* in its type; 0 where its name is another one */
    const char *class;
    uint32_t place;
};

static const char *class_words(uint32_t class_number)
{
    return class_number == WIT_RW ? "rw" : "sleep mutex";
}

/* The name that was put there, with its end. */
static void end_name(char name[NAME_ROOM], int64_t length)
{
    name[length < 0 ? 0 : length < NAME_ROOM ? length : NAME_ROOM - 1] = '\0';
}

static struct told told_at(struct wit_place *verifier, const struct wit_lock_at *at)
{
    struct told told = {.number = judged_number(at->lock), .class = class_words(at->class_number), .place = at->line};
    end_name(told.name, wit_lock_name(verifier, at->lock, told.name, NAME_ROOM));
    end_name(told.of, wit_type_name(verifier, (uint16_t)at->type_number, told.of, NAME_ROOM));
    return told;
}

/* The lock's name, and in brackets its type's name and a class, where one is given. */
static void put_names(struct lines *lines, const struct told *told, const char *class)
{
    bool once = is_place_in_code(told->place) && (told->number || strcmp(told->name, told->of) == 0);
    put_words(lines, "\"%s\"", once ? told->of : told->name);
    if (once && told->number)
        put_words(lines, " lock %u", told->number);
    if (!once || class)
        put_words(lines, " (%s%s%s)", once ? "" : told->of, !once && class ? ", " : "", class ? class : "");
    put_words(lines, " ");
}

static void put_lock(struct lines *lines, struct wit_place *verifier, const char *rank, const struct wit_lock_at *at)
{
    struct told told = told_at(verifier, at);
    put_words(lines, " %s ", rank);
    put_names(lines, &told, told.class);
    put_place(lines, told.place);
    put_words(lines, "\n");
}

/* No lock here is Giant, or one whose holder may sleep: a reversal breaks an order. */
static void put_heading(struct lines *lines, struct wit_place *verifier, int64_t answer, const struct wit_report *report)
{
    struct told asked = told_at(verifier, &report->asked);
    if (answer == WIT_DUPLICATE)
        put_words(lines, "acquiring duplicate lock of same type: \"%s\"\n", asked.of);
    else
        put_words(lines, "lock order reversal:\n");
}

static void put_step(struct lines *lines, struct wit_place *verifier, const struct wit_order *step)
{
    char first[NAME_ROOM], second[NAME_ROOM];
    end_name(first, wit_type_name(verifier, (uint16_t)step->first, first, NAME_ROOM));
    end_name(second, wit_type_name(verifier, (uint16_t)step->second, second, NAME_ROOM));
    put_words(lines, " \"%s\" -> \"%s\" ", first, second);
    if (step->origin == WIT_REQUESTED)
        put_place(lines, step->line);
    else
        put_words(lines, "@ %s", step->origin == WIT_LISTED ? "listed" : "defined");
    put_words(lines, "\n");
}

bool put_report(struct lines *lines, struct wit_place *verifier)
{
    static struct wit_order steps[TYPES];
    struct wit_report report;
    int64_t answer = wit_report(verifier, &report), count = wit_report_path(verifier, steps, TYPES);
    put_heading(lines, verifier, answer, &report);
    if (report.third.lock)
        put_lock(lines, verifier, "1st", &report.third);
    put_lock(lines, verifier, report.third.lock ? "2nd" : "1st", &report.held);
    put_lock(lines, verifier, report.third.lock ? "3rd" : "2nd", &report.asked);
    if (count > 0)
        put_words(lines, "established order:\n");
    for (int64_t i = 0; i < count && i < TYPES; i++)
        put_step(lines, verifier, &steps[i]);
    return count >= 0;
}

static void put_held(struct lines *lines, const struct told *told, bool exclusive, uint32_t count)
{
    put_words(lines, "%s %s ", exclusive ? "exclusive" : "shared", told->class);
    put_names(lines, told, NULL);
    put_words(lines, "r = %u ", count);
    put_place(lines, told->place);
    put_words(lines, "\n");
}

void put_seat(struct lines *lines, struct wit_place *verifier, uint16_t seat, const char *more)
{
    static struct wit_held held[HELD_MOST];
    int64_t count = wit_held(verifier, seat, held, HELD_MOST);
    if (count > 0)
        put_words(lines, "seat %u%s holds:\n", seat, more);
    for (int64_t i = 0; i < count && i < HELD_MOST; i++) {
        struct told told = told_at(verifier, &held[i].at);
        put_held(lines, &told, held[i].exclusive, held[i].count);
    }
}

void put_thread(struct lines *lines, const struct thread *thread)
{
    for (uint32_t i = thread->count; i > 0; i--) {
        const struct held *held = &thread->held[i - 1];
        struct told told = {.number = number_in_type(held->lock),
            .class = class_words(judged_class(held->lock)),
            .place = held->place};
        name_any(told.name, told.of, held->lock);
        put_held(lines, &told, held->mode == EXCLUSIVE, held->count - 1);
    }
}

void put_assertion(struct lines *lines, const char *name, int64_t answer)
{
    static const char *const words[] = {[WIT_INVALID] = "Invalid lock assertion",
        [WIT_IS_LOCKED] = "locked",
        [WIT_IS_NOT_LOCKED] = "not locked",
        [WIT_IS_NOT_EXCLUSIVE] = "not exclusively locked",
        [WIT_IS_EXCLUSIVE] = "exclusively locked",
        [WIT_IS_NOT_RECURSED] = "not recursed",
        [WIT_IS_RECURSED] = "recursed"};
    put_words(lines, "assert \"%s\": %s\n", name, words[answer]);
}
