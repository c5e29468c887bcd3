/*
 * The names of types, locks and places: the variable that a lock stands in, else the functions that made it. Few
 * people read offsets in objects, so a place has its function first. What the program names by itself has that name: a
 * type, and a place by its file and line.
 */
#include "names.h"

#include "code_words.h"
#include "label.h"

#include <stdio.h>
#include <string.h>

/* Each type's name, by its number in the stream. */
static char type_names[TYPES + 1][NAME_ROOM];

static const char *base_of(const char *path)
{
    const char *slash = strrchr(path, '/');
    return slash && slash[1] ? slash + 1 : path;
}

static const char *object_name(uint32_t object)
{
    const char *called = object ? object_called(object) : NULL;
    return called ? called : object ? base_of(object_path(object)) : "?";
}

/* Only the bytes that a name may have, and without a space those of a file's name. */
static void clean(char *text, char least)
{
    for (; *text; text++)
        if (*text < least || *text > '~' || *text == '"')
            *text = *text == '"' ? '\'' : *text == ' ' ? '_' : '?';
}

/* Text at the end of what is there, as far as there is room. */
static void add(char *to, size_t room, const char *text)
{
    size_t length = strlen(to);
    snprintf(to + length, room - length, "%s", text);
}

static void add_offset(char *to, size_t room, uint64_t offset)
{
    size_t length = strlen(to);
    snprintf(to + length, room - length, "+0x%lx", (unsigned long)offset);
}

/* A part of a C++ name, as its length and so many bytes; NULL where that isn't one. */
static const char *add_part(char *to, size_t room, const char *at)
{
    size_t length = 0, before = strlen(to);
    while (*at >= '0' && *at <= '9' && length < NAME_ROOM)
        length = length * 10 + (size_t)(*at++ - '0');
    if (length == 0 || strlen(at) < length)
        return NULL;
    if (strncmp(at, "_GLOBAL__N", 10) == 0)
        add(to, room, "{anonymous}");
    else
        snprintf(to + before, room - before, "%.*s", (int)length, at);
    return at + length;
}

/* The parts of a C++ name up to its end, joined; NULL where one isn't a plain name, as that of a template. */
static const char *add_parts(char *to, size_t room, const char *at)
{
    const char *last = at;
    while (at && *at != 'E') {
        if (*to)
            add(to, room, "::");
        if ((*at == 'C' || *at == 'D') && at[1] >= '0' && at[1] <= '9') {
            if (*at == 'D')
                add(to, room, "~");
            at = add_part(to, room, last) ? at + 2 : NULL;
        } else {
            last = at;
            at = add_part(to, room, at);
        }
    }
    return at;
}

/* A name as the source has it, where it is C or plain C++; else as the object has it. */
static void add_name(char *to, size_t room, const char *name)
{
    char plain[PLACE_ROOM] = "";
    const char *at = name + 2;
    bool nested = false, is_whole = false;
    if (strncmp(name, "_Z", 2) == 0) {
        nested = *at == 'N';
        at += nested;
        at += nested && *at == 'K';
        at += *at == 'L';
        is_whole = (nested ? add_parts(plain, sizeof plain, at) : add_part(plain, sizeof plain, at)) != NULL;
    }
    add(to, room, is_whole ? plain : name);
}

/* The variable that a lock stands in. */
static void add_variable(char *to, size_t room, uint32_t object, uintptr_t address)
{
    uintptr_t from = address;
    const char *name = "", *file = object_symbol_file(object, address);
    object_symbol(object, address, false, &from, NULL, &name);
    if (!*name) {
        add(to, room, object_name(object));
        add_offset(to, room, object_offset(object, address));
        return;
    }
    add_name(to, room, name);
    if (address != from)
        add_offset(to, room, address - from);
    if (!*file)
        return;
    add(to, room, " (");
    add(to, room, file);
    add(to, room, ")");
}

/* Of a place that stands for two, the one that isn't the library's. */
static const struct place *told_place(uint32_t number)
{
    const struct place *place = place_at(number);
    while (place->library && place->rest)
        place = place_at(place->rest);
    return place;
}

/* The address of the call, not that to which it returns. */
static uint64_t place_offset(const struct place *place)
{
    return (place->object ? place->offset : atomic_load(&place->pc)) - 1;
}

static void add_site(char *to, size_t room, const struct place *place)
{
    size_t length;
    add(to, room, place->file);
    length = strlen(to);
    snprintf(to + length, room - length, ":%lu", (unsigned long)place->offset);
}

static void add_caller(char *to, size_t room, const struct place *place)
{
    if (place->file && !*place->name) {
        add_site(to, room, place);
    } else if (*place->name) {
        add_name(to, room, place->name);
        add(to, room, "()");
    } else {
        add(to, room, object_name(place->object));
        add_offset(to, room, place_offset(place));
    }
}

/* FUNCTION+0xWITHIN (OBJECT). False where there is no room for all of it. */
static bool put_function(char to[PLACE_ROOM], const struct place *place)
{
    char object[PLACE_ROOM] = "";
    add(object, PLACE_ROOM, object_name(place->object));
    clean(object, '!');
    struct code_words words = {.object = object, .object_length = strlen(object)};
    object[code_object_told(&words)] = '\0';
    add_name(to, PLACE_ROOM, place->name);
    if (place->within > 0)
        add_offset(to, PLACE_ROOM, place->within - 1);
    clean(to, '!');
    add(to, PLACE_ROOM, " (");
    add(to, PLACE_ROOM, object);
    add(to, PLACE_ROOM, ")");
    return strlen(to) < PLACE_ROOM - 1;
}

/* What is told of it where its function isn't told first: the file and line, or the object and the offset. */
static void put_offset(char to[PLACE_ROOM], const struct place *place)
{
    *to = '\0';
    if (place->file) {
        add_site(to, PLACE_ROOM, place);
    } else {
        add(to, PLACE_ROOM, object_name(place->object));
        add_offset(to, PLACE_ROOM, place_offset(place));
    }
    if (*place->name) {
        add(to, PLACE_ROOM, "(");
        add_name(to, PLACE_ROOM, place->name);
        add(to, PLACE_ROOM, ")");
    }
    clean(to, '!');
}

void name_place(char to[PLACE_ROOM], uint32_t number)
{
    const struct place *place = number ? told_place(number) : NULL;
    *to = '\0';
    if (!place)
        add(to, PLACE_ROOM, "?");
    else if (place->file || !*place->name || !put_function(to, place))
        put_offset(to, place);
}

void name_site(char to[PLACE_ROOM], uint32_t number)
{
    if (!is_place_by_name(number)) {
        name_place(to, number);
        return;
    }
    *to = '\0';
    add_site(to, PLACE_ROOM, place_at(number));
    clean(to, '!');
}

/* Any bytes may be in it, which a terminal or the log would take for its own. */
void name_thread(char to[THREAD_NAME_ROOM])
{
    thread_name(&self, to);
    clean(to, ' ');
}

bool is_place_by_name(uint32_t number)
{
    return number && place_at(number)->file;
}

bool is_place_in_code(uint32_t number)
{
    return number && !told_place(number)->file;
}

const char *place_function(uint32_t number)
{
    return number ? told_place(number)->name : "";
}

/* A kernel has one lock of that name, with rules that no program's lock has. */
static bool is_taken(const char *name, uint32_t types)
{
    if (strcmp(name, "Giant") == 0)
        return true;
    for (uint32_t type = 1; type <= types; type++)
        if (strcmp(type_names[type], name) == 0)
            return true;
    return false;
}

/* As much of the text as leaves room for the tail, and the tail. */
static void put_with_tail(char to[NAME_ROOM], const char *text, const char *tail)
{
    snprintf(to, NAME_ROOM, "%.*s%s", (int)(NAME_ROOM - 1 - strlen(tail)), text, tail);
}

/* With its column where an earlier type has the label but for that. */
static void add_label(char to[NAME_ROOM], const struct type *type)
{
    size_t column = label_column(type->label);
    if (column == 0 || type_label_was_met(type))
        add(to, NAME_ROOM, type->label);
    else
        snprintf(to, NAME_ROOM, "%.*s)", (int)column, type->label);
}

/* What the type is called where no other one is. */
static void put_type(char to[NAME_ROOM], const struct type *type)
{
    *to = '\0';
    if (type->label)
        add_label(to, type);
    else if (type->object)
        add_variable(to, NAME_ROOM, type->object, type->address);
    for (uint32_t i = 0; !type->label && !type->object && i < DEPTH_MOST && type->places[i]; i++) {
        if (i > 0)
            add(to, NAME_ROOM, "<");
        add_caller(to, NAME_ROOM, told_place(type->places[i]));
    }
    if (type->part > 1)
        add_offset(to, NAME_ROOM, type->part - 1);
    clean(to, ' ');
    if (*to == '\0')
        add(to, NAME_ROOM, "?");
}

const char *name_type(const struct type *type, uint32_t number)
{
    char plain[NAME_ROOM], tried[NAME_ROOM], tail[16];
    put_type(plain, type);
    memcpy(tried, plain, NAME_ROOM);
    for (uint32_t another = 2; is_taken(tried, number - 1); another++) {
        snprintf(tail, sizeof tail, "#%u", another);
        put_with_tail(tried, plain, tail);
    }
    memcpy(type_names[number], tried, NAME_ROOM);
    return type_names[number];
}

const char *type_name(uint32_t number)
{
    return type_names[number];
}

/* Types are numbered anew. */
void names_forgotten(void)
{
    for (uint32_t type = 1; type <= TYPES && *type_names[type]; type++)
        *type_names[type] = '\0';
}

uint32_t number_in_type(const struct lock *lock)
{
    return !lock->type->object && lock->name->number > 1 ? lock->name->number : 0;
}

void name_lock(char to[NAME_ROOM], const struct lock *lock, const char *name_of_type)
{
    const struct type *type = lock->type;
    uintptr_t address = atomic_load(&lock->address);
    char tail[16];
    *to = '\0';
    if (type->object && address != type->address) {
        add_variable(to, NAME_ROOM, type->object, address);
        clean(to, ' ');
    } else if (number_in_type(lock)) {
        snprintf(tail, sizeof tail, "/%u", lock->name->number);
        put_with_tail(to, name_of_type, tail);
    } else {
        add(to, NAME_ROOM, name_of_type);
    }
}

void name_any(char to[NAME_ROOM], char of[NAME_ROOM], const struct lock *lock)
{
    uint32_t number = *mark(&lock->type->marks);
    if (number <= TYPES && *type_names[number])
        memcpy(of, type_names[number], NAME_ROOM);
    else
        put_type(of, lock->type);
    name_lock(to, lock, of);
}

void name_unmet(char to[NAME_ROOM], uintptr_t address)
{
    uint32_t object = object_of(address, false);
    *to = '\0';
    if (object)
        add_variable(to, NAME_ROOM, object, address);
    else
        add(to, NAME_ROOM, "?");
    clean(to, ' ');
}
