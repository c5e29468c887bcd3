#include "lock_names.h"

#include "allocation.h"
#include "call_choice.h"
#include "call_words.h"
#include "columns.h"
#include "declarations.h"
#include "fields.h"
#include "lock_expression.h"
#include "map.h"
#include "members.h"
#include "steps.h"
#include "texts.h"

#include <stdlib.h>
#include <string.h>

/* No lock that is found by a member is smaller: a mutex has so many bytes. */
enum { LOCK_BYTES = 40 };

struct lock_names {
    struct map by_step, functions_by_step; /* names and functions, in the texts */
    struct map fields;                     /* by labels and places, in the texts; an empty one where it isn't known */
    struct alike *alike;
    struct texts *texts;
};

struct lock_names *lock_names_new(void)
{
    struct lock_names *names = take(sizeof *names);
    names->alike = alike_new();
    names->texts = texts_new();
    return names;
}

void lock_names_end(struct lock_names *names)
{
    map_end(&names->fields);
    map_end(&names->by_step);
    map_end(&names->functions_by_step);
    alike_end(names->alike);
    texts_end(names->texts);
    free(names);
}

static const char *kept(struct lock_names *names, const char *text)
{
    return text ? texts_copy(names->texts, text, strlen(text)) : NULL;
}

/*
 * The member that all of them name, but those that are no lock in memory: variables, and what is too small for one. (An
 * attribute, or a flag, that a call is given beside the lock.)
 */
static struct member member_of_all(const struct locked *locked, struct debug_info *info, const struct spot_of_code *spot)
{
    struct member all = {0};
    for (size_t i = 0; i < locked->count; i++) {
        struct member member = member_of(info, spot, locked->expression[i]);
        bool is_none = member.is_variable || (member.size > 0 && member.size < LOCK_BYTES);
        bool is_equal = is_none || (member.identity && (!all.identity || strcmp(all.identity, member.identity) == 0));
        if (is_equal && !all.identity && !is_none)
            all = member;
        else
            member_end(&member);
        if (!is_equal) {
            member_end(&all);
            break;
        }
    }
    return all;
}

/* The spot of a step that has a line. What is given is the file's name: a text of one's own. */
static char *spot_at(const struct step *step, struct spot_of_code *spot)
{
    const char *colon = strrchr(step->site, ':');
    char *file = copy_bytes(step->site, (size_t)(colon - step->site));
    *spot = (struct spot_of_code){step->place->offset, file, strtol(colon + 1, NULL, 10), step->function};
    return file;
}

/* Whether the function there lets a lock go before it returns, by its text. */
static bool is_let_go(const struct declared *declared, struct debug_info *info, const struct spot_of_code *spot)
{
    long line = 0;
    char *function = function_at(info, spot, &line);
    char *site = say_text("%s:%ld", spot->file, line);
    const char *text = function ? source_lines_from(symbols_lines(declared->symbols), site) : NULL;
    bool is_told = text && lets_go(text);
    free(site);
    free(function);
    return is_told;
}

static void find_member(struct lock_names *names, const struct declared *declared, const struct step *step,
    const struct locked *locked, struct lock_name_in_source *name)
{
    struct binary *binary = object_of(declared, step->place->object)->binary;
    struct debug_info *info =
        binary && step->place->kind == PLACE_CALL && locked->count > 0 ? binary_debug(binary) : NULL;
    if (!info)
        return;
    struct spot_of_code spot;
    char *file = spot_at(step, &spot);
    struct member member = member_of_all(locked, info, &spot);
    name->member = kept(names, member.name);
    name->identity = kept(names, member.identity);
    name->size = member.size;
    name->is_kept = locked->is_bare && member.identity && !is_let_go(declared, info, &spot);
    member_end(&member);
    free(file);
}

/* A source that was changed after the object may have other lines by now. What debug information knows of it is right. */
static void find_expression(struct lock_names *names, const struct locked *locked, bool is_old,
    struct lock_name_in_source *name)
{
    if (locked->count != 1 || (!is_old && !name->member))
        return;
    char *expression = copy(locked->expression[0]);
    size_t length = strlen(expression);
    if (length > 2 && strcmp(expression + length - 2, "->") == 0)
        expression[length - 2] = '\0';
    leave_indices_out(expression);
    name->expression = kept(names, expression);
    free(expression);
}

/* The text of the step's line. Of a source that was changed after the object it may be another one by now. */
static const char *text_at(const struct declared *declared, const struct step *step)
{
    const struct statement *statement = step->site ? source_lines_at(symbols_lines(declared->symbols), step->site) : NULL;
    struct binary *binary = object_of(declared, step->place->object)->binary;
    return statement && (!binary || statement->changed <= binary_file(binary)->changed) ? statement->text : NULL;
}

/* Of a line with several statements the one that the column is in: a text of one's own. */
static char *part_at(const char *text, unsigned column)
{
    size_t wanted = column - 1, from = 0, at = 0;
    long open = 0;
    for (; text[at]; at++) {
        open += (text[at] == '(' || text[at] == '[') - (text[at] == ')' || text[at] == ']');
        if (open > 0 || !strchr(";{}", text[at]))
            continue;
        if (at >= wanted)
            break;
        from = at + 1;
    }
    return copy_bytes(text + from, at + (text[at] != '\0') - from);
}

char *call_name_at(const struct declared *declared, const struct step *step, const char *function)
{
    const char *text = text_at(declared, step);
    return text && function ? call_word(text, function) : NULL;
}

/* Several locks are named there. If the call's column is known, it is one of its own statement. */
static void read_part(struct locked *locked, const struct declared *declared, const struct step *step, const char *text)
{
    unsigned column = column_at(declared, step->place, step->frame, step->site);
    if (column == 0 || column > strcspn(text, "\n"))
        return;
    char *part = part_at(text, column);
    locked_end(locked);
    locked_read(locked, part);
    free(part);
}

static const struct lock_name_in_source *find(struct lock_names *names, const struct declared *declared,
    const struct step *step)
{
    struct lock_name_in_source *name = texts_room(names->texts, sizeof *name);
    const struct statement *statement = step->site ? source_lines_at(symbols_lines(declared->symbols), step->site) : NULL;
    if (!statement || !statement->text)
        return name;
    struct locked locked;
    locked_read(&locked, statement->text);
    if (locked.count > 1)
        read_part(&locked, declared, step, statement->text);
    find_member(names, declared, step, &locked, name);
    find_expression(names, &locked, text_at(declared, step) != NULL, name);
    locked_end(&locked);
    return name;
}

struct alike *lock_names_alike(const struct lock_names *names)
{
    return names->alike;
}

bool has_text_at(const struct declared *declared, const struct step *step)
{
    return text_at(declared, step) != NULL;
}

static const struct function_in_source *find_function(struct lock_names *names, const struct declared *declared,
    const struct step *step)
{
    struct function_in_source *function = texts_room(names->texts, sizeof *function);
    struct binary *binary = object_of(declared, step->place->object)->binary;
    struct debug_info *info = binary && step->place->kind == PLACE_CALL && step->site ? binary_debug(binary) : NULL;
    struct spot_of_code spot;
    long first;
    function->lines = -1;
    if (!info)
        return function;
    char *file = spot_at(step, &spot), *name = function_at(info, &spot, &first);
    function->lines = name ? spot.line - first : -1;
    free(file);
    bool is_bare = step->function && strcmp(step->function, "operator()") == 0;
    if (name && (!step->function || is_bare || !is_name_of_function(step->function, name)))
        function->name = kept(names, name);
    free(name);
    return function;
}

/* What tells the step from others: a text of one's own. */
static char *key_of(const struct declared *declared, const struct step *step)
{
    const char *path = object_of(declared, step->place->object)->path;
    return say_text("%s+%llx %zu %s", path ? path : "", (unsigned long long)step->place->offset, step->frame,
        step->site ? step->site : "");
}

const struct function_in_source *function_at_step(const struct declared *declared, const struct step *step)
{
    struct lock_names *names = symbols_lock_names(declared->symbols);
    char *key = key_of(declared, step);
    const void **function = map_thing(&names->functions_by_step, key, strlen(key));
    if (!*function)
        *function = find_function(names, declared, step);
    free(key);
    return *function;
}

const char *lock_field_of(const struct declared *declared, const struct type *type)
{
    struct lock_names *names = symbols_lock_names(declared->symbols);
    const struct place *place = type->count > 0 ? place_of(declared, type->place[0]) : NULL;
    if (!type->label || !place || place->kind != PLACE_SITE)
        return NULL;
    char *key = say_text("%s\n%s:%u", type->label, place->site->frame[0].site, (unsigned)type->column);
    const void **known = map_thing(&names->fields, key, strlen(key));
    if (!*known) {
        char *found = field_of_label(declared, type);
        *known = kept(names, found ? found : "");
        free(found);
    }
    free(key);
    const char *field = *known;
    return *field ? field : NULL;
}

const struct lock_name_in_source *lock_name_at(const struct declared *declared, const struct step *step)
{
    struct lock_names *names = symbols_lock_names(declared->symbols);
    char *key = key_of(declared, step);
    const void **name = map_thing(&names->by_step, key, strlen(key));
    if (!*name)
        *name = find(names, declared, step);
    free(key);
    return *name;
}
