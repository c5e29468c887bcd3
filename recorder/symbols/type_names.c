#include "type_names.h"

#include "allocation.h"
#include "files.h"
#include "function_names.h"
#include "lasting_variables.h"
#include "lock_names.h"
#include "sites.h"
#include "source_names.h"
#include "steps.h"
#include "texts.h"

#include <inttypes.h>
#include <stdio.h>
#include <stdlib.h>
#include <string.h>

struct giving {
    const struct declared *declared;
    struct types *types;
    const struct function_names *functions;
    const char **wanted; /* by types; NULL of one that isn't a first one */
    struct map taken;
};

struct told_names *told_names_new(void)
{
    struct told_names *told = take(sizeof *told);
    told->texts = texts_new();
    return told;
}

void told_names_end(struct told_names *told)
{
    map_end(&told->by_source);
    free(told->name);
    texts_end(told->texts);
    free(told);
}

void told_names_add(struct told_names *told, const char *stream, const char *source, const char *name)
{
    char *key = say_text("%s\n%s", stream, source);
    size_t *number = map_add_text(&told->by_source, key);
    if (*number == 0) {
        ADD(told->name, told->names, told->room) = texts_copy(told->texts, name, strlen(name));
        *number = told->names;
    }
    free(key);
}

static const char *told_before(const struct told_names *told, const char *stream, const char *source)
{
    char *key = say_text("%s\n%s", stream, source);
    size_t number = told ? map_find_text(&told->by_source, key) : 0;
    free(key);
    return number ? told->name[number - 1] : NULL;
}

static const struct type *declared_type(const struct giving *giving, uint32_t number)
{
    return &giving->declared->type[number];
}

/* Whether the line that makes the type's locks names one element alone: its index is a constant. */
static bool makes_one(const struct giving *giving, uint32_t number)
{
    struct steps steps;
    steps_begin(&steps, giving->declared, declared_type(giving, number));
    const char *expression = steps.count > 0 ? lock_name_at(giving->declared, steps.step)->expression : NULL;
    bool is_one = expression && strchr(expression, '[') && !strstr(expression, "[]");
    steps_end(&steps);
    return is_one;
}

/* The text in the bytes that a name may have. */
static const char *cleaned(const struct giving *giving, const char *text)
{
    char *name = copy(text);
    clean_name(name);
    const char *kept = texts_copy(giving->declared->derived, name, strlen(name));
    free(name);
    return kept;
}

/*
 * The name without its object. A variable that is one lock is told with the index of its element: it is a type of its own.
 */
static const char *bare_name(const struct giving *giving, uint32_t number)
{
    const struct named_type *type = &giving->types->type[number];
    const struct type *declared = declared_type(giving, number);
    const char *function = function_name(giving->functions, number);
    if (!type->lasting.lasts)
        return function ? cleaned(giving, function) : type->by_lines;
    bool is_one = declared->has_variable && !type->is_array && (declared->count == 0 || makes_one(giving, number));
    return is_one ? type->lock : type->lasting.bare;
}

/* What the program names has a line at its end, maybe, by which it is told from others. */
static const char *whole_label(const struct giving *giving, uint32_t number)
{
    return cleaned(giving, declared_type(giving, number)->label);
}

static const char *with_object(const struct giving *giving, uint32_t number)
{
    const struct named_type *type = &giving->types->type[number];
    int object = (int)(type->lasting.bare - type->lasting.name);
    if (declared_type(giving, number)->label)
        return whole_label(giving, number);
    return texts_say(giving->declared->derived, "%.*s%s", object, type->lasting.name, giving->wanted[number]);
}

/* A variable whose locks are made by several calls. */
static const char *with_functions(const struct giving *giving, uint32_t number)
{
    const struct type *type = declared_type(giving, number);
    if (!type->has_variable || type->count == 0)
        return giving->wanted[number];
    return texts_say(giving->declared->derived, "%s<%s", giving->wanted[number],
        lasting_functions(giving->declared, type));
}

/* FILE:LINE where the type's locks are made or first asked for: a text of one's own; NULL where that isn't known. */
static char *first_site(const struct giving *giving, uint32_t number)
{
    const struct type *type = declared_type(giving, number);
    struct steps steps;
    if (type->label)
        return type->count > 0 ? source_of(giving->declared, place_of(giving->declared, type->place[0])) : NULL;
    steps_begin(&steps, giving->declared, type);
    char *site = steps.count > 0 && steps.step[0].site ? copy(steps.step[0].site) : NULL;
    steps_end(&steps);
    return site;
}

/* With the file of that; of a member it may be another one in each run. */
static const char *with_file(const struct giving *giving, uint32_t number)
{
    const char *wanted = giving->wanted[number];
    char *site = giving->types->type[number].is_member ? NULL : first_site(giving, number);
    char *colon = site ? strrchr(site, ':') : NULL;
    if (colon) {
        *colon = '\0';
        char *name = say_text("%s (%s)", wanted, file_base(site));
        clean_name(name);
        wanted = texts_copy(giving->declared->derived, name, strlen(name));
        free(name);
    }
    free(site);
    return wanted;
}

/* A type that wants a name. */
struct claimant {
    const char *wanted, *source;
    uint32_t number;
};

static int by_name_and_source(const void *left, const void *right)
{
    const struct claimant *one = left, *other = right;
    int order = strcmp(one->wanted, other->wanted);
    order = order ? order : strverscmp(one->source, other->source);
    return order ? order : (one->number > other->number) - (one->number < other->number);
}

/* All types that are a first one, by the names that they want: a list of one's own. */
static struct claimant *claimants_of(const struct giving *giving, size_t *count)
{
    const struct types *types = giving->types;
    struct claimant *claimant = take((types->count + 1) * sizeof *claimant);
    *count = 0;
    for (uint32_t number = 1; number < types->count; number++)
        if (types->type[number].first == number)
            claimant[(*count)++] = (struct claimant){giving->wanted[number], types->type[number].source, number};
    qsort(claimant, *count, sizeof *claimant, by_name_and_source);
    return claimant;
}

typedef const char *more(const struct giving *giving, uint32_t number);

/* Types that want one name want one with more in it, where that tells some of them from others. */
static void part_claimants(struct giving *giving, const struct claimant *claimant, size_t count, more *with_more)
{
    const char **wanted = take(count * sizeof *wanted);
    bool is_parted = false;
    for (size_t i = 0; i < count; i++) {
        const struct named_type *type = &giving->types->type[claimant[i].number];
        bool is_free = !type->name && type->lasting.lasts;
        wanted[i] = is_free ? with_more(giving, claimant[i].number) : claimant[i].wanted;
        is_parted |= strcmp(wanted[i], wanted[0]) != 0;
    }
    for (size_t i = 0; i < count && is_parted; i++)
        giving->wanted[claimant[i].number] = wanted[i];
    free(wanted);
}

static void part(struct giving *giving, more *with_more)
{
    size_t count;
    struct claimant *claimant = claimants_of(giving, &count);
    for (size_t from = 0, to; from < count; from = to) {
        for (to = from + 1; to < count && strcmp(claimant[to].wanted, claimant[from].wanted) == 0;)
            to++;
        if (to - from > 1)
            part_claimants(giving, claimant + from, to - from, with_more);
    }
    free(claimant);
}

/* What is called equal still is numbered. */
static const char *single(struct giving *giving, const char *wanted)
{
    const char *tried = wanted;
    for (unsigned long n = 2; map_has_text(&giving->taken, tried); n++)
        tried = texts_say(giving->declared->derived, "%s#%lu", wanted, n);
    *map_add_text(&giving->taken, tried) = 1;
    return tried;
}

static void give_wanted(struct giving *giving)
{
    size_t count;
    struct claimant *claimant = claimants_of(giving, &count);
    for (size_t i = 0; i < count; i++) {
        struct named_type *type = &giving->types->type[claimant[i].number];
        if (!type->name)
            type->name = single(giving, claimant[i].wanted);
    }
    free(claimant);
}

/* What was told stays. */
static void give_told(struct giving *giving, const struct told_names *told, const char *stream)
{
    for (uint32_t number = 1; number < giving->types->count; number++) {
        struct named_type *type = &giving->types->type[number];
        const char *before = type->first == number ? told_before(told, stream, type->source) : NULL;
        if (!before || map_has_text(&giving->taken, before))
            continue;
        type->name = giving->wanted[number] = texts_copy(giving->declared->derived, before, strlen(before));
        *map_add_text(&giving->taken, type->name) = 1;
    }
}

static void give_lasting(struct types *types, const struct declared *declared)
{
    for (uint32_t number = 1; number < types->count; number++) {
        struct named_type *type = &types->type[number];
        if (type->first != number)
            continue;
        type->lasting = lasting_of(declared, types, number);
        if (declared->type[number].has_variable)
            type->lock = variable_lock_name(declared, &declared->type[number].variable);
    }
}

/* Giant is the kernel's own lock, with rules that no program's has. */
void type_names_give(struct types *types, const struct declared *declared, const struct told_names *told,
    const char *stream)
{
    struct function_names functions;
    struct giving giving = {declared, types, &functions, take((types->count + 1) * sizeof *giving.wanted), {0}};
    *map_add_text(&giving.taken, "Giant") = 1;
    give_lasting(types, declared);
    function_names_begin(&functions, declared, types);
    for (uint32_t number = 1; number < types->count; number++) {
        struct named_type *type = &types->type[number];
        if (type->first != number)
            continue;
        giving.wanted[number] = bare_name(&giving, number);
        type->lock_has_name = type->lock && (!type->lasting.lasts || strcmp(type->lock, giving.wanted[number]) == 0);
    }
    give_told(&giving, told, stream);
    part(&giving, with_object);
    part(&giving, with_functions);
    part(&giving, with_file);
    give_wanted(&giving);
    for (uint32_t number = 1; number < types->count; number++)
        types->type[number].name = types->type[types->type[number].first].name;
    function_names_end(&functions);
    map_end(&giving.taken);
    free(giving.wanted);
}

const char *variable_lock_in(const struct declared *declared, const struct named_type *type,
    const struct variable *variable)
{
    const char *own = variable_lock_name(declared, variable);
    if (type->lock_has_name && strcmp(own, type->lock) == 0)
        return type->name;
    int object = (int)(type->lasting.bare - type->lasting.name);
    bool has_object = object > 0 && strncmp(type->name, type->lasting.name, (size_t)object) == 0;
    return has_object ? texts_say(declared->derived, "%.*s%s", object, type->lasting.name, own) : own;
}

const char *numbered_lock_in(const struct declared *declared, const struct named_type *type, uint32_t number)
{
    return number <= 1 ? type->name : texts_say(declared->derived, "%s/%" PRIu32, type->name, number);
}

void trace_name(char cut[TRACE_NAME_MOST + 1], const char *name)
{
    enum { KEPT = TRACE_NAME_MOST - 9 };
    uint32_t hash = 0x811c9dc5u;
    if (strlen(name) <= TRACE_NAME_MOST) {
        strcpy(cut, name);
        return;
    }
    for (const char *at = name; *at; at++)
        hash = (hash ^ (unsigned char)*at) * 0x01000193u;
    snprintf(cut, TRACE_NAME_MOST + 1, "%.*s~%08" PRIx32, (int)KEPT, name, hash);
}
