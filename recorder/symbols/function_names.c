#include "function_names.h"

#include "allocation.h"
#include "source_names.h"
#include "steps.h"
#include "texts.h"

#include <stdlib.h>
#include <string.h>

/* Gives the type's steps where functions alone tell it: its innermost place has one, and no line. Else there are none. */
static bool begin_steps(struct steps *steps, const struct function_names *names, uint32_t number)
{
    const struct named_type *named = &names->types->type[number];
    const struct type *type = &names->declared->type[number];
    *steps = (struct steps){0};
    if (named->first != number || named->lasting.lasts || type->label || type->has_variable)
        return false;
    steps_begin(steps, names->declared, type);
    return steps->count > 0 && !steps->step[0].site && steps->step[0].place->function;
}

/* The function of the step as one that may name a type; NULL where it says nothing of it. */
static const char *function_at(const struct steps *steps, size_t at)
{
    const struct step *step = &steps->step[at];
    const char *function = step->site || step->place->function ? step->function : NULL;
    bool is_begin = at > 0 && function && (is_thread_begin(function) || strcmp(function, "main") == 0);
    return is_begin ? NULL : function;
}

static bool is_met_before(const struct steps *steps, size_t at)
{
    for (size_t i = 0; i < at; i++) {
        const char *function = function_at(steps, i);
        if (function && strcmp(function, function_at(steps, at)) == 0)
            return true;
    }
    return false;
}

/* All functions, innermost first: a text of one's own. */
static char *way_of(const struct steps *steps)
{
    char *way = copy(steps->step[0].function);
    for (size_t i = 1; i < steps->count; i++) {
        const char *function = steps->step[i].function ? steps->step[i].function : steps->step[i].name;
        char *longer = say_text("%s<%s", way, function);
        free(way);
        way = longer;
    }
    return way;
}

static void count_type(struct function_names *names, const struct steps *steps)
{
    char *way = way_of(steps);
    ++*map_add_text(&names->ways, way);
    free(way);
    for (size_t i = 0; i < steps->count; i++)
        if (function_at(steps, i) && !is_met_before(steps, i))
            ++*map_add_text(&names->functions, function_at(steps, i));
}

void function_names_begin(struct function_names *names, const struct declared *declared, const struct types *types)
{
    *names = (struct function_names){.declared = declared, .types = types};
    for (uint32_t number = 1; number < types->count; number++) {
        struct steps steps;
        if (begin_steps(&steps, names, number))
            count_type(names, &steps);
        steps_end(&steps);
    }
}

void function_names_end(struct function_names *names)
{
    map_end(&names->functions);
    map_end(&names->ways);
}

static const char *name_by(const struct function_names *names, const struct steps *steps)
{
    struct texts *texts = names->declared->derived;
    for (size_t i = 0; i < steps->count; i++) {
        const char *function = function_at(steps, i);
        if (function && map_find_text(&names->functions, function) == 1)
            return texts_copy(texts, function, strlen(function));
    }
    char *way = way_of(steps);
    const char *name = map_find_text(&names->ways, way) == 1 ? texts_copy(texts, way, strlen(way)) : NULL;
    free(way);
    return name;
}

const char *function_name(const struct function_names *names, uint32_t number)
{
    struct steps steps;
    const char *name = begin_steps(&steps, names, number) ? name_by(names, &steps) : NULL;
    steps_end(&steps);
    return name;
}
