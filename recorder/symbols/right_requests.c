#include "right_orders.h"

#include "allocation.h"
#include "code_words.h"
#include "format.h"
#include "lasting_variables.h"
#include "map.h"
#include "sites.h"
#include "steps.h"
#include "texts.h"

#include <fnmatch.h>
#include <stdlib.h>
#include <string.h>

/* The locks that a seat holds, by numbers of the stream. */
struct held {
    uint32_t *lock;
    size_t count, room;
};

/* A request that the stream has, by its types. */
struct met {
    uint32_t held, asked;
    bool is_right, is_wrong; /* a list has the request; none has it */
    const char *library;
};

struct right_requests {
    const struct right_orders *right;
    const struct declared *declared;
    const struct types *types;
    struct texts *texts;
    size_t looked;  /* at types before that number */
    bool has_any;   /* one of them may be a list's; no request that came before need be known */
    size_t passed;  /* so many locks were made before */
    uint32_t *type; /* of each further lock */
    size_t locks, lock_room;
    struct held *seat;
    struct map known;  /* requests that are in the list */
    struct map single; /* of two single locks, in that order */
    bool lacks_pairs;
    struct met *met;
    size_t mets, met_room;
};

/* The name by which others ask for the object, or its file's; of a library without its version. */
static bool is_object(const struct declared *declared, uint32_t number, const char *pattern)
{
    struct binary *binary = binary_of_object(declared, number);
    const char *soname = binary ? binary_file(binary)->soname : NULL;
    const char *name = soname ? soname : object_name(declared, number);
    struct code_words words = {.object = name, .object_length = strlen(name)};
    char *plain = copy_bytes(name, code_object_told(&words));
    bool is = fnmatch(pattern, plain, 0) == 0;
    free(plain);
    return is;
}

/* Whether the step's function has a name. */
static bool is_named(const struct step *step)
{
    return step->site || step->place->function;
}

/* Whether one of the type's places is in the object: without that no list has it, and its steps needn't be known. */
static bool has_place_in(const struct declared *declared, const struct type *type, const char *object)
{
    for (size_t i = 0; i < type->count; i++) {
        const struct place *place = place_of(declared, type->place[i]);
        for (; place->kind == PLACE_PAIR; place = place_of(declared, place->rest))
            if (is_object(declared, place_of(declared, place->library)->object, object))
                return true;
        if (place->kind == PLACE_CALL && is_object(declared, place->object, object))
            return true;
    }
    return false;
}

/* Whether the function of the object makes the type's locks, or may: the innermost one has no name. */
static bool is_made_by(const struct right_requests *reading, uint32_t number, const char *object, const char *function)
{
    const struct declared *declared = reading->declared;
    const struct type *type = &declared->type[number];
    if (type->has_variable)
        return is_object(declared, type->variable.object, object)
            && (!type->variable.name || strcmp(type->variable.name, function) == 0);
    if (!has_place_in(declared, type, object))
        return false;
    struct steps steps;
    steps_begin(&steps, declared, type);
    bool is_there = steps.count > 0 && steps.step[0].place->kind == PLACE_CALL
        && is_object(declared, steps.step[0].place->object, object);
    bool is_made = is_there && !is_named(&steps.step[0]);
    for (size_t i = 0; is_there && i < steps.count && !is_made; i++)
        is_made = is_named(&steps.step[i]) && steps.step[i].function && strcmp(steps.step[i].function, function) == 0;
    steps_end(&steps);
    return is_made;
}

/* Whether the place is in one of the order's functions; `has_name` where it is in any that has a name, in the object. */
static bool is_in(const struct right_requests *reading, const struct place *place, const struct right_order *order,
    bool *has_name)
{
    const struct declared *declared = reading->declared;
    for (; place->kind == PLACE_PAIR; place = place_of(declared, place->rest))
        if (is_in(reading, place_of(declared, place->library), order, has_name))
            return true;
    if (place->kind != PLACE_CALL || !is_object(declared, place->object, order->object))
        return false;
    const struct code *code = code_of(declared, place);
    const char *own = function_of(declared, place);
    *has_name |= own != NULL;
    for (size_t i = 0; i < order->functions; i++) {
        if (own && strcmp(own, order->function[i]) == 0)
            return true;
        for (size_t frame = 0; frame < code->count; frame++)
            if (code->frame[frame].function && strcmp(code->frame[frame].function, order->function[i]) == 0)
                return true;
    }
    return false;
}

/* Whether a request at that place and with that stack comes by way of one of the order's functions, or may. */
static bool is_by_way(const struct right_requests *reading, const struct right_order *order, uint32_t place,
    uint32_t stack)
{
    const struct declared *declared = reading->declared;
    bool has_name = false, is_there = is_in(reading, place_of(declared, place), order, &has_name);
    for (size_t i = 0; stack > 0 && stack < declared->stacks && !is_there && i < declared->stack[stack].count; i++)
        is_there = is_in(reading, place_of(declared, declared->stack[stack].place[i]), order, &has_name);
    return is_there || !has_name;
}

/* The order of the lists that the request is; NULL where it is none. */
static const struct right_order *right_order_of(const struct right_requests *reading, uint32_t held, uint32_t asked,
    uint32_t place, uint32_t stack)
{
    for (size_t i = 0; i < reading->right->count; i++) {
        const struct right_order *order = &reading->right->order[i];
        if (is_made_by(reading, held, order->object, order->held)
            && is_made_by(reading, asked, order->object, order->asked) && is_by_way(reading, order, place, stack))
            return order;
    }
    return NULL;
}

/* The name of the order's object, as it is told. */
static const char *library_of(const struct right_requests *reading, uint32_t type)
{
    const struct type *declared = &reading->declared->type[type];
    struct steps steps;
    steps_begin(&steps, reading->declared, declared);
    uint32_t object = declared->has_variable ? declared->variable.object
        : steps.count > 0                    ? steps.step[0].place->object
                                             : 0;
    steps_end(&steps);
    struct code_words words = {.object = object_name(reading->declared, object)};
    words.object_length = strlen(words.object);
    return texts_copy(reading->texts, words.object, code_object_told(&words));
}

static void note_request(struct right_requests *reading, uint32_t held, uint32_t asked, uint32_t place, uint32_t stack)
{
    const uint32_t key[] = {held, asked, place, stack};
    size_t *known = map_add(&reading->known, key, sizeof key);
    if (*known)
        return;
    const struct right_order *order = right_order_of(reading, held, asked, place, stack);
    *known = 1;
    ADD(reading->met, reading->mets, reading->met_room) =
        (struct met){held, asked, order != NULL, order == NULL, order ? library_of(reading, asked) : NULL};
}

/* Of two types: they aren't ignored. */
static void add_wrong(struct right_requests *reading, uint32_t held, uint32_t asked)
{
    ADD(reading->met, reading->mets, reading->met_room) = (struct met){.held = held, .asked = asked, .is_wrong = true};
}

/* `pair SEAT THREAD AT PLACE LOCK SERIAL TYPE MODE LOCK SERIAL TYPE MODE`: what was taken both ways may hang. */
static void read_pair(struct right_requests *reading, const struct line *line)
{
    uint32_t held = 0, asked = 0, held_type = 0, asked_type = 0;
    field_number(line, PAIR_HELD + PAIR_SERIAL, UINT32_MAX - 1, &held);
    field_number(line, PAIR_ASKED + PAIR_SERIAL, UINT32_MAX - 1, &asked);
    if (!field_number(line, PAIR_HELD + PAIR_TYPE, TYPE_MOST - 1, &held_type)
        || !field_number(line, PAIR_ASKED + PAIR_TYPE, TYPE_MOST - 1, &asked_type) || held_type >= reading->types->count
        || asked_type >= reading->types->count)
        return;
    const uint32_t key[] = {held, asked}, other[] = {asked, held};
    *map_add(&reading->single, key, sizeof key) = 1;
    if (map_find(&reading->single, other, sizeof other) == 0)
        return;
    held_type = reading->types->type[held_type].first;
    asked_type = reading->types->type[asked_type].first;
    add_wrong(reading, held_type, asked_type);
    add_wrong(reading, asked_type, held_type);
}

static uint32_t type_of(const struct right_requests *reading, uint32_t lock)
{
    return lock > reading->passed && lock - reading->passed <= reading->locks ? reading->type[lock - reading->passed - 1]
                                                                              : 0;
}

/* `check SEAT LOCK MODE n PLACE STACK`. */
static void read_check(struct right_requests *reading, const struct line *line, struct held *seat, uint32_t lock)
{
    uint32_t place = 0, stack = 0, asked = type_of(reading, lock);
    field_number(line, 5, PLACE_MOST - 1, &place);
    if (line->count > 6 && !field_number(line, line->count - 1, STACK_MOST - 1, &stack))
        stack = 0;
    for (size_t i = 0; asked && i < seat->count; i++)
        if (seat->lock[i] != lock && type_of(reading, seat->lock[i]))
            note_request(reading, type_of(reading, seat->lock[i]), asked, place, stack);
}

static void release(struct held *seat, uint32_t lock)
{
    for (size_t i = seat->count; i > 0; i--)
        if (seat->lock[i - 1] == lock) {
            memmove(seat->lock + i - 1, seat->lock + i, (seat->count - i) * sizeof *seat->lock);
            seat->count--;
            return;
        }
}

static void read_init(struct right_requests *reading, const struct line *line)
{
    uint32_t number;
    if (!field_number(line, 4, TYPE_MOST - 1, &number) || number >= reading->types->count)
        number = 0;
    ADD(reading->type, reading->locks, reading->lock_room) = number ? reading->types->type[number].first : 0;
}

static void read_call(struct right_requests *reading, const struct line *line)
{
    uint32_t number, lock;
    if (field_is(line, 0, WORD_INIT))
        read_init(reading, line);
    if (field_is(line, 0, WORD_PAIR))
        read_pair(reading, line);
    if (field_is(line, 0, WORD_INIT) || field_is(line, 0, WORD_PAIR))
        return;
    if (!field_number(line, 1, SEAT_MOST - 1, &number) || !field_number(line, 2, LOCK_MOST, &lock))
        return;
    struct held *seat = &reading->seat[number];
    if (field_is(line, 0, WORD_CHECK))
        read_check(reading, line, seat, lock);
    else if (field_is(line, 0, WORD_LOCK) || field_is(line, 0, WORD_TRY))
        ADD(seat->lock, seat->count, seat->room) = lock;
    else if (field_is(line, 0, WORD_UNLOCK))
        release(seat, lock);
}

/* Whether the type may be a list's. */
static bool is_any(const struct right_requests *reading, uint32_t number)
{
    for (size_t i = 0; i < reading->right->count; i++) {
        const struct right_order *order = &reading->right->order[i];
        if (is_made_by(reading, number, order->object, order->held)
            || is_made_by(reading, number, order->object, order->asked))
            return true;
    }
    return false;
}

/* Whether the two were asked for in that order, and all such requests are right; the library. */
static const char *library_if_right(const struct right_requests *reading, uint32_t held, uint32_t asked, bool *is_met)
{
    const char *library = NULL;
    bool is_wrong = false;
    for (size_t i = 0; i < reading->mets; i++) {
        const struct met *met = &reading->met[i];
        if (met->held != held || met->asked != asked)
            continue;
        *is_met = true;
        is_wrong |= met->is_wrong;
        library = met->is_right ? met->library : library;
    }
    return is_wrong ? NULL : library;
}

/* What is right of the two is ignored where the other way was met, too. */
static void ignore(const struct right_requests *reading, const struct types *types, const struct met *met,
    struct notes *notes)
{
    struct ignored_types *ignored = &notes->ignored;
    const char *held = types->type[met->held].name, *asked = types->type[met->asked].name;
    bool is_met = false, is_other_met = false, is_double = met->held == met->asked;
    const char *library = library_if_right(reading, met->held, met->asked, &is_met);
    library_if_right(reading, met->asked, met->held, &is_other_met);
    if (!library || !is_other_met || why_ignored(ignored, held, asked) != NOT_IGNORED)
        return;
    if (is_double)
        ignored_add_type(ignored, held, IGNORED_AS_RIGHT);
    else
        ignored_add_pair(ignored, held, asked, IGNORED_AS_RIGHT);
    if (!has_text(notes->library, notes->libraries, library))
        ADD(notes->library, notes->libraries, notes->library_room) = texts_copy(notes->texts, library, strlen(library));
}

struct right_requests *right_requests_new(const struct right_orders *right, const struct declared *declared)
{
    struct right_requests *requests = take(sizeof *requests);
    requests->right = right;
    requests->declared = declared;
    requests->looked = 1;
    return requests;
}

void right_requests_end(struct right_requests *requests)
{
    for (size_t i = 0; requests->seat && i < SEAT_MOST; i++)
        free(requests->seat[i].lock);
    free(requests->seat);
    free(requests->type);
    free(requests->met);
    map_end(&requests->known);
    map_end(&requests->single);
    texts_end(requests->texts);
    free(requests);
}

/* Looks at the types that are new. Those of the lists are declared before their locks are made. */
static bool has_any(struct right_requests *requests)
{
    for (; requests->looked < requests->types->count && !requests->has_any; requests->looked++)
        requests->has_any = is_any(requests, (uint32_t)requests->looked);
    if (!requests->has_any)
        requests->passed = requests->declared->locks;
    else if (!requests->seat) {
        requests->seat = take(SEAT_MOST * sizeof *requests->seat);
        requests->texts = texts_new();
    }
    return requests->has_any;
}

bool right_requests_read(struct right_requests *requests, const struct types *types, const char *at, const char *end)
{
    struct line line;
    size_t before = requests->mets;
    bool lacked_pairs = requests->lacks_pairs;
    requests->types = types;
    requests->lacks_pairs = requests->declared->lacks_pairs;
    while (has_any(requests) && line_next(&line, &at, end))
        read_call(requests, &line);
    return requests->mets > before || requests->lacks_pairs != lacked_pairs;
}

void right_requests_ignore(const struct right_requests *requests, const struct types *types, struct notes *notes)
{
    notes->libraries = 0;
    for (size_t i = 0; i < requests->mets && !requests->lacks_pairs; i++)
        if (requests->met[i].is_right)
            ignore(requests, types, &requests->met[i], notes);
}
