#include "types.h"

#include "allocation.h"
#include "label.h"
#include "lasting_variables.h"
#include "lock_names.h"
#include "map.h"
#include "sites.h"
#include "source_names.h"
#include "steps.h"
#include "texts.h"

#include <inttypes.h>
#include <stdio.h>
#include <stdlib.h>
#include <string.h>

/* What a trace has room for, and what is kept of a name that its object follows. */
enum { NAME_MOST = 63, NAME_KEPT = 40 };

/* A type as it is named. */
struct naming {
    struct text source, plain, functions;
    const char *claim; /* the name that it would have */
};

struct namer {
    const struct declared *declared;
    struct types *types;
    struct naming *naming;
    struct map taken;
    struct map variables; /* how many types each variable is */
};

static void add(struct text *text, const char *more)
{
    text_add(text, more, strlen(more));
}

static const char *bytes_of(const struct text *text)
{
    return text->bytes ? text->bytes : "";
}

/* The text as a name of at most 63 bytes, of which the tail isn't cut. */
static const char *cut_name(struct texts *texts, const char *text, const char *tail)
{
    size_t kept = strlen(tail) < NAME_MOST ? NAME_MOST - strlen(tail) : 0;
    return texts_say(texts, "%.*s%.*s", (int)kept, text, NAME_MOST, tail);
}

/* One caller more of the type. */
static void add_step(struct namer *namer, uint32_t number, const struct step *step, bool is_first_step)
{
    struct naming *naming = &namer->naming[number];
    add(&naming->source, " < ");
    add(&naming->source, step->identity);
    if (namer->declared->type[number].has_variable)
        return;
    char *clean = copy(step->function ? step->function : step->name);
    clean_name(clean);
    add(&naming->plain, is_first_step ? "" : "<");
    add(&naming->plain, step->name);
    add(&naming->functions, is_first_step ? "" : "<");
    add(&naming->functions, clean);
    add(&naming->functions, step->function ? "()" : "");
    free(clean);
}

static void read_steps(struct namer *namer, uint32_t number)
{
    struct steps steps;
    steps_begin(&steps, namer->declared, &namer->declared->type[number]);
    for (size_t i = 0; i < steps.count; i++)
        add_step(namer, number, &steps.step[i], i == 0);
    steps_end(&steps);
}

/* The variable that a lock of the type stands in, as a text of one's own; NULL where no lock of it was met in one. */
static char *variable_of(const struct declared *declared, const struct type *type)
{
    const struct variable *variable = &type->variable;
    const char *path = object_of(declared, variable->object)->path;
    if (!type->has_variable || type->count > 0 || !variable->name)
        return NULL;
    return say_text("%s %s %" PRId64, type->class ? type->class : "", path ? path : "",
        (int64_t)(variable->offset - variable->within));
}

static void count_variables(struct namer *namer)
{
    for (uint32_t number = 1; number < namer->types->count; number++) {
        char *variable = variable_of(namer->declared, &namer->declared->type[number]);
        if (variable)
            ++*map_add_text(&namer->variables, variable);
        free(variable);
    }
}

/*
 * What parts it from other arrays in the variable, as a text of one's own; NULL where it is no part of an array. Without debug
 * information the variable is one array where it came to be so many types.
 */
static char *array_of(const struct namer *namer, const struct type *type, const char *variable)
{
    char *part = variable_part(namer->declared, &type->variable, FEW_ELEMENTS, false);
    if (!part)
        return map_find_text(&namer->variables, variable) > FEW_ELEMENTS ? copy("") : NULL;
    if (strstr(part, "[]"))
        return part;
    free(part);
    return NULL;
}

/* A type that is an array, or a part of one. */
static bool read_array(struct namer *namer, uint32_t number)
{
    const struct type *type = &namer->declared->type[number];
    char *variable = variable_of(namer->declared, type), *array = variable ? array_of(namer, type, variable) : NULL;
    struct naming *naming = &namer->naming[number];
    namer->types->type[number].is_array = array != NULL;
    if (array) {
        struct variable whole = type->variable;
        whole.within = 0;
        size_t named = strcspn(array, "[");
        add(&naming->source, variable);
        add(&naming->source, array);
        add(&naming->plain, variable_name(namer->declared, &whole));
        add(&naming->plain, array[named] ? array + named : "[]");
    }
    free(variable);
    free(array);
    return namer->types->type[number].is_array;
}

static void read_variable_type(struct namer *namer, uint32_t number)
{
    const struct type *type = &namer->declared->type[number];
    const struct variable *variable = &type->variable;
    struct naming *naming = &namer->naming[number];
    const char *path = object_of(namer->declared, variable->object)->path;
    char *identity = say_text(" %s %" PRId64, path ? path : "",
        (int64_t)(variable->offset - (type->count > 0 ? variable->within : 0)));
    const char *name = variable_name(namer->declared, variable);
    add(&naming->source, identity);
    add(&naming->plain, name);
    free(identity);
}

/* A type that the program names: the place where it was made is its source, and no part of its name. */
static void read_label(struct namer *namer, uint32_t number)
{
    const struct type *type = &namer->declared->type[number];
    struct naming *naming = &namer->naming[number];
    char *label = copy(type->label);
    char *made = type->count > 0 ? source_of(namer->declared, place_of(namer->declared, type->place[0])) : copy("");
    clean_name(label);
    add(&naming->source, " ");
    add(&naming->source, label);
    add(&naming->source, " ");
    add(&naming->source, made);
    add(&naming->plain, label);
    label_without_line(label);
    add(&naming->functions, label);
    free(made);
    free(label);
}

/*
 * Whether the step's source line names a member that is a lock of the class. What is too small for one only leads to it, and
 * what has room for two may be either. A function that keeps the lock when it returns may lock for many others.
 */
static bool has_member(const struct namer *namer, const struct type *type, const struct step *step)
{
    enum { MUTEX_BYTES = 40, RWLOCK_BYTES = 56 };
    const struct lock_name_in_source *lock = lock_name_at(namer->declared, step);
    uint64_t bytes = type->class && strcmp(type->class, "mtx") == 0 ? MUTEX_BYTES : RWLOCK_BYTES;
    return lock->identity && !lock->is_kept && lock->size >= bytes && lock->size < 2 * bytes;
}

/* The offset in their blocks that parts the locks of one call, or of one allocation. */
static void add_offset(struct namer *namer, uint32_t number)
{
    const struct type *type = &namer->declared->type[number];
    struct naming *naming = &namer->naming[number];
    char offset[24];
    snprintf(offset, sizeof offset, "+0x%" PRIx64, type->offset);
    add(&naming->source, type->is_met ? " taken " : " made ");
    add(&naming->source, offset);
    if (type->offset != 0)
        add(&naming->plain, offset);
}

/* Where the first use of locks that no call has made names their member, what took their blocks doesn't count. */
static void settle_offsets(struct declared *declared)
{
    const struct namer namer = {.declared = declared};
    for (size_t number = 1; number < declared->types; number++) {
        struct type *type = &declared->type[number];
        struct type used = {.class = type->class, .place = type->use, .count = type->uses};
        struct steps steps;
        steps_begin(&steps, declared, &used);
        if (steps.count > 0 && has_member(&namer, &used, &steps.step[0]))
            leave_offset_out(type);
        steps_end(&steps);
    }
}

/*
 * Locks in memory that no call has made have the place of their first use, whichever that is. Where its line names the
 * member of a class, the locks of that member are one type, wherever they are first used.
 */
static void read_member(struct namer *namer, uint32_t number)
{
    const struct type *type = &namer->declared->type[number];
    struct text *source = &namer->naming[number].source;
    struct steps steps;
    steps_begin(&steps, namer->declared, type);
    if (steps.count > 0 && has_member(namer, type, &steps.step[0])) {
        namer->types->type[number].is_member = true;
        source->length = 0;
        add(source, type->class);
        add(source, " ");
        add(source, lock_name_at(namer->declared, &steps.step[0])->identity);
        add(source, " of ");
        add(source, object_of(namer->declared, steps.step[0].place->object)->path);
    }
    steps_end(&steps);
}

/* Where a type comes from, and what it would be called. */
static void read_type(struct namer *namer, uint32_t number)
{
    const struct type *type = &namer->declared->type[number];
    struct naming *naming = &namer->naming[number];
    namer->types->type[number].has_locks = type->class != NULL || type->is_in_pairs;
    if (read_array(namer, number))
        return;
    add(&naming->source, type->class ? type->class : "");
    if (type->has_variable)
        read_variable_type(namer, number);
    if (type->label)
        read_label(namer, number);
    if (!type->label)
        read_steps(namer, number);
    if (type->has_offset)
        add_offset(namer, number);
    else if (type->is_met)
        read_member(namer, number);
    if (naming->plain.length == 0)
        add(&naming->plain, "?");
    clean_name(naming->plain.bytes);
}

static bool is_first(const struct namer *namer, uint32_t number)
{
    return namer->types->type[number].first == number;
}

/* Types that come from the same source are one, whatever the compiler made of it. */
static void find_first(struct namer *namer)
{
    struct map first = {0};
    struct named_type *type = namer->types->type;
    for (uint32_t number = 1; number < namer->types->count; number++) {
        read_type(namer, number);
        size_t *found = map_add_text(&first, bytes_of(&namer->naming[number].source));
        if (*found == 0) {
            *found = number;
            namer->types->different++;
        }
        type[number].first = (uint32_t)*found;
        const struct text *source = &namer->naming[number].source;
        type[number].source = texts_copy(namer->declared->derived, bytes_of(source), source->length);
    }
    map_end(&first);
}

/* Counts the types that would have a name. */
static void claim_names(struct namer *namer, struct map *claims)
{
    for (uint32_t number = 1; number < namer->types->count; number++) {
        struct naming *naming = &namer->naming[number];
        if (!is_first(namer, number))
            continue;
        naming->claim = cut_name(namer->declared->derived, bytes_of(&naming->plain), "");
        ++*map_add_text(claims, naming->claim);
    }
}

/* Where several types have one name, variables say their object. */
static void part_variables(struct namer *namer)
{
    struct map claims = {0};
    struct texts *texts = namer->declared->derived;
    claim_names(namer, &claims);
    for (uint32_t number = 1; number < namer->types->count; number++) {
        const struct type *type = &namer->declared->type[number];
        struct text *plain = &namer->naming[number].plain;
        if (!is_first(namer, number) || !type->has_variable || map_find_text(&claims, namer->naming[number].claim) < 2)
            continue;
        char *object = say_text("%s)", object_name(namer->declared, type->variable.object));
        bool closes = plain->bytes[plain->length - 1] == ')';
        const char *head = texts_say(texts, "%.*s%s", (int)(plain->length - closes), plain->bytes, closes ? ", " : " (");
        clean_name(object);
        const char *parted = cut_name(texts, texts_say(texts, "%.*s", NAME_KEPT, head), object);
        plain->length = 0;
        add(plain, parted);
        free(object);
    }
    map_end(&claims);
}

/* A name that no other type has. */
static const char *single(struct namer *namer, const char *name)
{
    char tail[24];
    const char *tried = name;
    for (unsigned long n = 2; map_has_text(&namer->taken, tried); n++) {
        snprintf(tail, sizeof tail, "#%lu", n);
        tried = cut_name(namer->declared->derived, name, tail);
    }
    *map_add_text(&namer->taken, tried) = 1;
    return tried;
}

/* A type that claims a name. */
struct claimant {
    const char *source;
    uint32_t number;
};

static int by_source(const void *left, const void *right)
{
    const struct claimant *one = left, *other = right;
    int order = strcmp(one->source, other->source);
    return order ? order : (one->number > other->number) - (one->number < other->number);
}

/* All that claim the name of that type get theirs, in the order of their sources. */
static void name_claimants(struct namer *namer, uint32_t from)
{
    struct claimant *claimant = NULL;
    size_t claimants = 0, room = 0;
    const char *name = namer->naming[from].claim;
    for (uint32_t number = from; number < namer->types->count; number++)
        if (is_first(namer, number) && strcmp(namer->naming[number].claim, name) == 0)
            ADD(claimant, claimants, room) = (struct claimant){bytes_of(&namer->naming[number].source), number};
    qsort(claimant, claimants, sizeof *claimant, by_source);
    for (size_t i = 0; i < claimants; i++)
        namer->types->type[claimant[i].number].by_lines = single(namer, name);
    free(claimant);
}

/* What is called equal still is numbered. Giant is the kernel's own lock, with rules that no program's has. */
static void give_names(struct namer *namer)
{
    struct map claims = {0};
    struct named_type *type = namer->types->type;
    *map_add_text(&namer->taken, "Giant") = 1;
    claim_names(namer, &claims);
    map_end(&claims);
    for (uint32_t number = 1; number < namer->types->count; number++) {
        const struct text *functions = &namer->naming[number].functions;
        if (is_first(namer, number) && !type[number].by_lines)
            name_claimants(namer, number);
        type[number].by_lines = type[type[number].first].by_lines;
        const char *alone = cut_name(namer->declared->derived, bytes_of(&namer->naming[number].plain), "");
        type[number].alone = is_first(namer, number) || map_has_text(&namer->taken, alone) ? NULL : alone;
        if (functions->bytes)
            type[number].functions = texts_copy(namer->declared->derived, functions->bytes, functions->length);
    }
    map_end(&namer->taken);
    map_end(&namer->variables);
}

void types_begin(struct types *types, struct declared *declared)
{
    struct namer namer = {.declared = declared, .types = types};
    settle_offsets(declared);
    *types = (struct types){.count = declared->types};
    types->type = take(types->count * sizeof *types->type);
    namer.naming = take(types->count * sizeof *namer.naming);
    count_variables(&namer);
    find_first(&namer);
    part_variables(&namer);
    give_names(&namer);
    for (size_t i = 0; i < types->count; i++) {
        free(namer.naming[i].source.bytes);
        free(namer.naming[i].plain.bytes);
        free(namer.naming[i].functions.bytes);
    }
    free(namer.naming);
}

void types_end(struct types *types)
{
    free(types->type);
    *types = (struct types){0};
}

enum types_stay types_stay(const struct types *types, const struct types *later)
{
    enum types_stay stay = TYPES_STAY;
    for (uint32_t number = 1; number < types->count; number++) {
        const struct named_type *type = &types->type[number], *now = &later->type[number];
        if (type->has_locks && type->first != now->first)
            return TYPES_MERGED;
        bool is_renamed = type->lock_has_name != now->lock_has_name || strcmp(type->name, now->name) != 0;
        if (type->has_locks && is_renamed)
            stay = TYPES_RENAMED;
    }
    return stay;
}
