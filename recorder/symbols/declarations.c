#include "declarations.h"

#include "allocation.h"
#include "columns.h"
#include "files.h"
#include "format.h"
#include "progress.h"
#include "source_names.h"
#include "texts.h"

#include <inttypes.h>
#include <stdio.h>
#include <stdlib.h>
#include <string.h>

/* What the seats hold and ask for where the reading is. */
struct seats {
    long held[SEAT_MOST];
    bool is_pending[SEAT_MOST];
};

/* The list with room for that number, and the new ones in it zero. */
static void *reach(void *list, size_t *count, size_t *room, uint32_t number, size_t size)
{
    if (number >= *room) {
        size_t wide = *room ? *room : 64;
        while (wide <= number)
            wide *= 2;
        list = grow_zeroed(list, *room, wide, size);
        *room = wide;
    }
    if (number >= *count)
        *count = (size_t)number + 1;
    return list;
}

/* The field as a word of others, NULL where it stands for none. */
static const char *word_at(const struct declared *declared, const struct line *line, unsigned number)
{
    char *word = field_word(line, number);
    const char *kept = word ? texts_copy(declared->texts, word, strlen(word)) : NULL;
    free(word);
    return kept;
}

static struct object *object_at(struct declared *declared, uint32_t number)
{
    declared->object =
        reach(declared->object, &declared->objects, &declared->object_room, number, sizeof *declared->object);
    return &declared->object[number];
}

/* The object whose number is in the line; NULL where none is. */
static struct object *object_in(struct declared *declared, const struct line *line)
{
    uint32_t number;
    if (field_number(line, 1, OBJECT_MOST - 1, &number))
        return object_at(declared, number);
    declared->is_odd = true;
    return NULL;
}

static void read_object(struct declared *declared, const struct line *line)
{
    struct object *object = object_in(declared, line);
    if (object)
        object->path = word_at(declared, line, 2);
}

static void read_called(struct declared *declared, const struct line *line)
{
    struct object *object = object_in(declared, line);
    if (object)
        object->called = word_at(declared, line, 2);
}

static void read_blind(struct declared *declared, const struct line *line)
{
    struct object *object = object_in(declared, line);
    if (object)
        object->is_blind = true;
}

/* A place for the line, whose number no other line has. */
static struct place *new_place(struct declared *declared, const struct line *line)
{
    uint32_t number;
    if (!field_number(line, 1, PLACE_MOST - 1, &number) || number == 0 || place_of(declared, number)->kind != PLACE_NONE) {
        declared->is_odd = true;
        return NULL;
    }
    declared->place_at =
        reach(declared->place_at, &declared->places, &declared->place_room, number, sizeof *declared->place_at);
    struct place *place = &ADD(declared->place, declared->placed, declared->placed_room);
    declared->place_at[number] = (uint32_t)declared->placed;
    return place;
}

/* Of an object that a place is in. */
static void find_binary(struct declared *declared, uint32_t number)
{
    struct object *object = number < declared->objects ? &declared->object[number] : NULL;
    if (object && object->path && !object->binary)
        object->binary = symbols_binary(declared->symbols, object->path);
}

static void read_place(struct declared *declared, const struct line *line)
{
    struct place read = {.kind = PLACE_CALL, .function = word_at(declared, line, 4)}, *place;
    if (!field_number(line, 2, OBJECT_MOST - 1, &read.object) || !field_hexadecimal(line, 3, &read.offset)) {
        declared->is_odd = true;
        return;
    }
    field_hexadecimal(line, 5, &read.within);
    place = new_place(declared, line);
    if (!place)
        return;
    *place = read;
    find_binary(declared, read.object);
    field_number(line, 1, PLACE_MOST - 1, &ADD(declared->call, declared->calls, declared->call_room));
}

/* The two places stand before it: so none leads back to itself. */
static void read_either(struct declared *declared, const struct line *line)
{
    struct place read = {.kind = PLACE_PAIR}, *place;
    if (!field_number(line, 2, PLACE_MOST - 1, &read.library) || !field_number(line, 3, PLACE_MOST - 1, &read.rest)
        || place_of(declared, read.library)->kind != PLACE_CALL || place_of(declared, read.rest)->kind == PLACE_NONE) {
        declared->is_odd = true;
        return;
    }
    place = new_place(declared, line);
    if (place)
        *place = read;
}

/* `site NUMBER FILE LINE FUNCTION`. */
static void read_site(struct declared *declared, const struct line *line)
{
    uint32_t number;
    const char *file = word_at(declared, line, 2), *function = word_at(declared, line, 4);
    if (!file || !field_number(line, 3, INT32_MAX, &number)) {
        declared->is_odd = true;
        return;
    }
    struct inlined *frame = texts_room(declared->texts, sizeof *frame);
    struct code *site = texts_room(declared->texts, sizeof *site);
    *frame = (struct inlined){.function = function, .site = texts_say(declared->texts, "%s:%" PRIu32, file, number)};
    *site = (struct code){.function = function, .count = 1, .frame = frame};
    struct place *place = new_place(declared, line);
    if (place)
        *place = (struct place){.kind = PLACE_SITE, .site = site};
}

/* The places from that field on. */
static size_t read_places(struct declared *declared, const struct line *line, unsigned field, const uint32_t **places)
{
    size_t count = 0;
    uint32_t *read = texts_room(declared->texts, (line->count > field ? line->count - field : 0) * sizeof *read);
    for (; field < line->count; field++) {
        if (field_number(line, field, PLACE_MOST - 1, &read[count]))
            count++;
        else
            declared->is_odd = true;
    }
    *places = read;
    return count;
}

static void read_stack(struct declared *declared, const struct line *line)
{
    uint32_t number;
    if (!field_number(line, 1, STACK_MOST - 1, &number) || number == 0) {
        declared->is_odd = true;
        return;
    }
    declared->stack = reach(declared->stack, &declared->stacks, &declared->stack_room, number, sizeof *declared->stack);
    struct stack *stack = &declared->stack[number];
    stack->count = read_places(declared, line, 2, &stack->place);
}

bool read_variable(const struct declared *declared, const struct line *line, unsigned field, struct variable *variable)
{
    *variable = (struct variable){0};
    if (!field_number(line, field, OBJECT_MOST - 1, &variable->object)
        || !field_hexadecimal(line, field + 1, &variable->offset))
        return false;
    variable->name = word_at(declared, line, field + 2);
    field_hexadecimal(line, field + 3, &variable->within);
    variable->file = word_at(declared, line, field + 4);
    return true;
}

static struct type *type_at(struct declared *declared, uint32_t number)
{
    declared->type = reach(declared->type, &declared->types, &declared->type_room, number, sizeof *declared->type);
    return &declared->type[number];
}

void leave_offset_out(struct type *type)
{
    if (type->uses > 0) {
        type->place = type->use;
        type->count = type->uses;
    }
    type->has_offset = false;
    type->uses = 0;
}

/* `part OFFSET COUNT`, so many places of a first use, and those of the call that makes the locks, or takes their blocks. */
static void read_part(struct declared *declared, const struct line *line, struct type *type)
{
    uint32_t uses;
    const uint32_t *places;
    size_t count = read_places(declared, line, 5, &places);
    if (!field_hexadecimal(line, 3, &type->offset) || !field_number(line, 4, FIELDS_MOST, &uses) || uses > count) {
        declared->is_odd = true;
        return;
    }
    type->has_offset = true;
    type->is_met = uses > 0;
    type->use = places;
    type->uses = uses;
    type->place = places + uses;
    type->count = count - uses;
}

static void read_type(struct declared *declared, const struct line *line)
{
    uint32_t number;
    bool has_variable = field_is(line, 2, WORD_VARIABLE), has_label = field_is(line, 2, WORD_NAMED);
    struct variable variable = {0};
    if (!field_number(line, 1, TYPE_MOST - 1, &number) || number == 0
        || (has_variable && !read_variable(declared, line, 3, &variable))) {
        declared->is_odd = true;
        return;
    }
    struct type *type = type_at(declared, number);
    declared->has_news = true;
    type->has_variable = has_variable;
    type->variable = variable;
    type->is_met = field_is(line, 2, WORD_MET);
    type->given = type->label = has_label ? word_at(declared, line, 3) : NULL;
    leave_offset_out(type);
    if (field_is(line, 2, WORD_PART))
        read_part(declared, line, type);
    else
        type->count = read_places(declared, line, has_variable ? 8 : has_label ? 4 : 3, &type->place);
    if (!has_label && type->count > declared->deepest)
        declared->deepest = type->count;
    if (type->uses > declared->deepest)
        declared->deepest = type->uses;
}

static void read_crowded(struct declared *declared, const struct line *line)
{
    uint32_t number;
    declared->has_news = true;
    declared->crowded++;
    if (field_number(line, 1, TYPE_MOST - 1, &number) && number < declared->types)
        leave_offset_out(&declared->type[number]);
    else
        declared->is_odd = true;
}

static bool read_seat(struct declared *declared, const struct line *line, uint32_t *seat)
{
    if (field_number(line, 1, SEAT_MOST - 1, seat))
        return true;
    declared->is_odd = true;
    return false;
}

static void seat_is_used(struct declared *declared, uint32_t seat)
{
    if (seat > declared->seats)
        declared->seats = seat;
}

static void read_init(struct declared *declared, const struct line *line)
{
    uint32_t seat, number;
    declared->locks++;
    if (read_seat(declared, line, &seat))
        seat_is_used(declared, seat);
    if (!field_number(line, 4, TYPE_MOST - 1, &number) || number == 0 || declared->locks > LOCK_MOST) {
        declared->is_odd = true;
        return;
    }
    struct type *type = type_at(declared, number);
    if (type->class)
        return;
    type->class = texts_copy(declared->texts, line->field[2].at, line->field[2].length);
    declared->has_news = true;
}

/* A type without a lock that is told of may come to be another one's, as one with a lock may. */
static void read_pair(struct declared *declared, const struct line *line)
{
    uint32_t number;
    for (unsigned lock = PAIR_HELD; lock <= PAIR_ASKED; lock += PAIR_ASKED - PAIR_HELD) {
        if (!field_number(line, lock + PAIR_TYPE, TYPE_MOST - 1, &number) || number == 0)
            continue;
        struct type *type = type_at(declared, number);
        declared->has_news |= !type->class && !type->is_in_pairs;
        type->is_in_pairs = true;
    }
}

static void read_foreign(struct declared *declared, const struct line *line)
{
    uint32_t seat;
    if (read_seat(declared, line, &seat))
        seat_is_used(declared, seat);
}

static void read_many(struct declared *declared, const struct line *line)
{
    (void)line;
    declared->lacks_pairs = true;
}

/* Of calls it is counted what their seats hold and ask for. False where the line is of none. */
static bool read_call(struct declared *declared, const struct line *line)
{
    uint32_t seat;
    struct seats *seats = declared->standing;
    bool asks = field_is(line, 0, WORD_CHECK), gets = field_is(line, 0, WORD_LOCK), tries = field_is(line, 0, WORD_TRY);
    bool releases = field_is(line, 0, WORD_UNLOCK);
    if (!asks && !gets && !tries && !releases && !field_is(line, 0, WORD_GIVEUP))
        return false;
    if (!read_seat(declared, line, &seat))
        return true;
    if (asks || tries)
        seat_is_used(declared, seat);
    if (gets || tries)
        seats->held[seat]++;
    if (releases)
        seats->held[seat]--;
    else if (!tries && seats->is_pending[seat] != asks) {
        declared->pending += asks ? 1 : -1UL;
        seats->is_pending[seat] = asks;
    }
    if (seats->held[seat] > (long)declared->held)
        declared->held = (unsigned long)seats->held[seat];
    return true;
}

/* Each word that declares something. */
static const struct {
    const char *word;
    void (*reads)(struct declared *declared, const struct line *line);
} words[] = {
    {WORD_INIT, read_init},
    {WORD_OBJECT, read_object},
    {WORD_CALLED, read_called},
    {WORD_BLIND, read_blind},
    {WORD_PLACE, read_place},
    {WORD_EITHER, read_either},
    {WORD_SITE, read_site},
    {WORD_STACK, read_stack},
    {WORD_TYPE, read_type},
    {WORD_CROWDED, read_crowded},
    {WORD_FOREIGN, read_foreign},
    {WORD_MANY, read_many},
    {WORD_PAIR, read_pair},
};

static void read_line(struct declared *declared, const struct line *line)
{
    if (read_call(declared, line))
        return;
    for (size_t i = 0; i < sizeof words / sizeof *words; i++)
        if (field_is(line, 0, words[i].word)) {
            words[i].reads(declared, line);
            return;
        }
}

void declared_begin(struct declared *declared, struct symbols *symbols)
{
    *declared = (struct declared){
        .symbols = symbols,
        .texts = texts_new(),
        .derived = texts_new(),
        .columns = columns_new(),
        .standing = take(sizeof *declared->standing),
    };
}

void declared_read(struct declared *declared, const char *at, const char *end, bool progress)
{
    struct line line;
    while (line_next(&line, &at, end)) {
        declared->lines++;
        read_line(declared, &line);
        if (progress)
            progress_read(declared->lines);
    }
}

void declared_end(struct declared *declared)
{
    free(declared->object);
    free(declared->place);
    free(declared->place_at);
    free(declared->stack);
    free(declared->type);
    free(declared->call);
    free(declared->standing);
    texts_end(declared->texts);
    texts_end(declared->derived);
    columns_end(declared->columns);
    *declared = (struct declared){0};
}

const struct object *object_of(const struct declared *declared, uint32_t number)
{
    static const struct object nothing;
    return number < declared->objects ? &declared->object[number] : &nothing;
}

const struct place *place_of(const struct declared *declared, uint32_t number)
{
    static const struct place nothing;
    uint32_t at = number < declared->places ? declared->place_at[number] : 0;
    return at > 0 ? &declared->place[at - 1] : &nothing;
}

const char *object_name(const struct declared *declared, uint32_t number)
{
    const struct object *object = object_of(declared, number);
    return object->called ? object->called : object->path ? file_base(object->path) : "";
}

const char *variable_name(const struct declared *declared, const struct variable *variable)
{
    char within[24] = "";
    char *name;
    if (variable->name && variable->within != 0)
        snprintf(within, sizeof within, "+0x%" PRIx64, variable->within);
    if (!variable->name)
        name = say_text("%s+0x%" PRIx64, object_name(declared, variable->object), variable->offset);
    else
        name = say_text("%s%s%s%s%s", symbols_name(declared->symbols, variable->name), within,
            variable->file ? " (" : "", variable->file ? variable->file : "", variable->file ? ")" : "");
    clean_name(name);
    const char *kept = texts_copy(declared->derived, name, strlen(name));
    free(name);
    return kept;
}
