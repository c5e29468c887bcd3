#include "lasting_names.h"

#include "allocation.h"
#include "call_choice.h"
#include "declarations.h"
#include "label.h"
#include "lasting_variables.h"
#include "lock_names.h"
#include "source_names.h"
#include "steps.h"
#include "texts.h"
#include "types.h"

#include <inttypes.h>
#include <stdlib.h>
#include <string.h>

/* A name that is being made. */
struct making_name {
    const struct declared *declared;
    const struct type *type;
    struct steps steps;
    char *text;
    size_t head; /* so much of it is the object */
    bool lasts;
};

static void say(struct making_name *name, const char *more)
{
    char *longer = say_text("%s%s", name->text, more);
    free(name->text);
    name->text = longer;
}

/* The name by which others ask for the object; else the one that was executed, or its file's. */
static const char *lasting_object(const struct declared *declared, uint32_t object)
{
    struct binary *binary = binary_of_object(declared, object);
    const char *soname = binary ? binary_file(binary)->soname : NULL;
    return soname ? soname : object_name(declared, object);
}

/* The name of a function without what it gives, which templates have. */
static const char *bare_function(const char *function)
{
    const char *last = function;
    unsigned open = 0;
    for (const char *at = function; *at && strncmp(at, "operator", 8) != 0; at++) {
        open += *at == '(' || *at == '{' || *at == '[';
        open -= (*at == ')' || *at == '}' || *at == ']') && open > 0;
        if (*at == ' ' && open == 0 && at[1] && at[1] != ' ')
            last = at + 1;
    }
    return last;
}

/* Compilers number lambdas, and call them by names of their own: one is told by the function that it stands in. In place. */
static void name_lambda(char *function)
{
    static const char *const begins[] = {"{lambda", "<lambda", "'lambda", "$_", "?::operator()"}, instead[] = "{lambda}";
    char *first = NULL;
    for (size_t i = 0; i < sizeof begins / sizeof *begins; i++) {
        char *at = strstr(function, begins[i]);
        if (at && (!first || at < first))
            first = at;
    }
    if (!first)
        return;
    /* A function that is inside one: `main::{lambda()#1}::operator()()::own`. */
    if (strlen(first) >= sizeof instead - 1)
        strcpy(first, instead);
}

/* The step's function, and how many lines the step is below its first one: a text of one's own. */
static char *function_in(const struct making_name *name, const struct step *step, long *lines)
{
    const struct function_in_source *known = function_at_step(name->declared, step);
    char *function = copy(known->name ? known->name : step->function ? bare_function(step->function) : "?");
    *lines = known->lines;
    name_lambda(function);
    return function;
}

/* What tells a line from those before it in its function that look like it, as `#2`: a text of one's own. */
static char *number_alike(size_t before)
{
    return before > 0 ? say_text("#%zu", before + 1) : copy("");
}

/*
 * The function that asked for the lock, or made it, with the member or else the words that it names the lock by. Where
 * neither is known it is how many lines below the function's first one that is; else the name doesn't last.
 */
static char *innermost(struct making_name *name, const struct step *step)
{
    const struct lock_name_in_source *lock = lock_name_at(name->declared, step);
    const char *word = lock->member ? lock->member : lock->expression;
    long lines;
    char *function = function_in(name, step, &lines), *said;
    if (word) {
        char *number = number_alike(locks_alike_before(name->declared, step, lock));
        said = say_text("%s(%s%s)", function, word, number);
        free(number);
    } else if (step->site && step->place->kind != PLACE_CALL) {
        said = say_text("%s()", function);
    } else if (lines >= 0) {
        said = say_text("%s(+%ld)", function, lines);
    } else {
        name->lasts = false;
        said = step->site ? say_text("%s(%s)", function, step->name) : copy(step->name);
    }
    free(function);
    return said;
}

/* A caller, by what tells its call from others: the call's own words, or where its line isn't known that line's number. */
static char *caller(const struct making_name *name, const struct step *step, const struct step *called)
{
    const struct place *place = step->place;
    long lines;
    if (!name->lasts)
        return copy(step->name);
    if (place->kind == PLACE_CALL && !step->site && !place->function)
        return copy(lasting_object(name->declared, place->object));
    char *callee = function_in(name, called, &lines), *function = function_in(name, step, &lines);
    char *word = call_name_at(name->declared, step, callee);
    char *number = number_alike(calls_alike_before(name->declared, step, callee, word));
    if (!word && lines >= 0 && !has_text_at(name->declared, step))
        word = say_text("+%ld", lines);
    char *said = say_text("%s(%s%s)", function, word ? word : "", number);
    free(callee);
    free(number);
    free(function);
    free(word);
    return said;
}

static void say_steps(struct making_name *name)
{
    const struct step *step = name->steps.step;
    for (size_t i = 0; i < name->steps.count; i++) {
        char *said = i == 0 ? innermost(name, &step[i]) : caller(name, &step[i], &step[i - 1]);
        say(name, i == 0 ? "" : "<");
        say(name, said);
        free(said);
    }
}

static void say_object(struct making_name *name, uint32_t object)
{
    say(name, lasting_object(name->declared, object));
    say(name, ":");
    name->head = strlen(name->text);
}

/* Whether the expression begins with the variable of that name, whatever it is a part of. */
static bool is_of_variable(const char *expression, const char *variable)
{
    size_t length = strlen(variable);
    const char *last = variable + length;
    while (last > variable && last[-1] != ':')
        last--;
    if (strncmp(expression, variable, length) == 0 && (expression[length] == '\0' || strchr(".[", expression[length])))
        return true;
    length = strlen(last);
    return strncmp(expression, last, length) == 0 && (expression[length] == '\0' || strchr(".[", expression[length]));
}

/* As debug information has it. False where there is none. */
static bool say_part(struct making_name *name)
{
    char *part = variable_part(name->declared, &name->type->variable, FEW_ELEMENTS, name->steps.count > 0);
    if (part)
        say(name, part);
    free(part);
    return part != NULL;
}

/* As the symbol has it: of a lock that a call has made the call's own word for it is part of the name. */
static void say_symbol(struct making_name *name, bool is_array)
{
    const struct variable *variable = &name->type->variable;
    struct variable whole = *variable;
    const char *symbol = variable->name ? symbols_name(name->declared->symbols, variable->name) : NULL;
    bool is_made = name->steps.count > 0;
    const char *expression = is_made ? lock_name_at(name->declared, name->steps.step)->expression : NULL;
    if (is_made || is_array)
        whole.within = 0;
    if (!symbol)
        whole.offset -= is_made ? variable->within : 0;
    name->lasts = symbol && length_without_number(symbol) == strlen(symbol);
    if (expression && symbol && is_of_variable(expression, symbol)) {
        say(name, expression);
        return;
    }
    whole.file = NULL;
    say(name, variable_name(name->declared, &whole));
    say(name, is_array ? "[]" : is_made ? "<" : "");
    say_steps(name);
}

/* A lock in a variable. Where others have the variable's name it is told of which file this one is. */
static void say_variable(struct making_name *name, bool is_array)
{
    const struct variable *variable = &name->type->variable;
    say_object(name, variable->object);
    if (!say_part(name))
        say_symbol(name, is_array);
    if (variable->file) {
        say(name, " (");
        say(name, variable->file);
        say(name, ")");
    }
}

static void say_label(struct making_name *name)
{
    const char *field = lock_field_of(name->declared, name->type);
    char *label = copy(field ? field : name->type->label);
    label_without_line(label);
    say(name, label);
    free(label);
}

/* The build-ids of the objects that the name goes by, each once. */
static const char *build_ids(const struct making_name *name)
{
    const struct declared *declared = name->declared;
    uint32_t seen[2 * FIELDS_MOST];
    size_t count = 0;
    char *ids = copy("");
    for (size_t i = 0; i <= name->steps.count && count < sizeof seen / sizeof *seen; i++) {
        bool is_variable = i == name->steps.count, is_seen = false;
        if (is_variable && !name->type->has_variable)
            break;
        uint32_t object = is_variable ? name->type->variable.object : name->steps.step[i].place->object;
        for (size_t j = 0; j < count; j++)
            is_seen |= seen[j] == object;
        if (is_seen)
            continue;
        struct binary *binary = binary_of_object(declared, object);
        const char *id = binary ? binary_file(binary)->build_id : NULL;
        char *more = say_text("%s%s%s", ids, count ? "+" : "", id ? id : "-");
        free(ids);
        ids = more;
        seen[count++] = object;
    }
    const char *kept = texts_copy(declared->derived, ids, strlen(ids));
    free(ids);
    return kept;
}

/* The C library's functions, as that which calls `main`, are known where its debug information is there, or aren't. */
static bool is_of_c_library(const struct declared *declared, const struct step *step)
{
    const char *path = object_of(declared, step->place->object)->path;
    return step->place->kind == PLACE_CALL && path && is_c_library(path);
}

/* The callers up to the C library. */
static void begin_steps(struct making_name *name)
{
    struct steps *steps = &name->steps;
    steps_begin(steps, name->declared, name->type);
    for (size_t i = 1; i < steps->count; i++)
        if (is_of_c_library(name->declared, &steps->step[i]))
            steps->count = i;
}

const char *lasting_functions(const struct declared *declared, const struct type *type)
{
    struct making_name name = {.declared = declared, .type = type, .text = copy(""), .lasts = true};
    begin_steps(&name);
    say_steps(&name);
    clean_name(name.text);
    const char *kept = texts_copy(declared->derived, name.text, strlen(name.text));
    steps_end(&name.steps);
    free(name.text);
    return kept;
}

struct lasting lasting_of(const struct declared *declared, const struct types *types, uint32_t number)
{
    const struct named_type *named = &types->type[number];
    struct making_name name = {.declared = declared, .type = &declared->type[named->first], .text = copy(""), .lasts = true};
    begin_steps(&name);
    if (name.type->label) {
        say_label(&name);
    } else if (name.type->has_variable) {
        say_variable(&name, types->type[named->first].is_array);
    } else if (name.steps.count > 0) {
        const struct place *place = name.steps.step[0].place;
        if (place->kind == PLACE_CALL)
            say_object(&name, place->object);
        if (types->type[named->first].is_member)
            say(&name, lock_name_at(declared, name.steps.step)->member);
        else
            say_steps(&name);
        if (name.type->has_offset && name.type->offset != 0) {
            char *offset = say_text("+0x%" PRIx64, name.type->offset);
            say(&name, offset);
            free(offset);
        }
    } else {
        say(&name, "?");
        name.lasts = false;
    }
    clean_name(name.text);
    const char *kept = texts_copy(declared->derived, name.text, strlen(name.text));
    struct lasting lasting = {kept, kept + name.head, name.lasts, name.lasts ? NULL : build_ids(&name)};
    steps_end(&name.steps);
    free(name.text);
    return lasting;
}
