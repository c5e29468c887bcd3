#include "scopes.h"

#include "files.h"
#include "source_names.h"

#include <limits.h>
#include <string.h>

bool is_named(const struct entry *entry, const char *name)
{
    const char *own = entry_name(entry);
    return own && strcmp(own, name) == 0;
}

/* The line on which the function is declared; 0 where that isn't known, or it is in another file. */
static int line_of_function(const struct context *context, const struct entry *function)
{
    const char *file = entry_file(function);
    bool is_there = file && strcmp(file_base(file), file_base(context->spot->file)) == 0;
    return is_there ? entry_line(function) : 0;
}

/* A lambda is nowhere declared, as far as gcc tells. */
static bool is_lambda(const struct entry *function)
{
    const char *name = entry_name(function);
    return name && strcmp(name, "operator()") == 0 && !entry_file(function);
}

/* Of all around, those of the function that the line is in: it is declared above the line, and none that is nearer. */
static bool find_around(struct context *context)
{
    struct entry all[SCOPES_MOST];
    const char *told = context->spot->function;
    size_t depth = debug_info_around(context->info, &context->unit, context->spot->address, all), end = depth;
    int nearest = 0;
    for (size_t i = depth; i-- > 0;) {
        if (entry_kind(&all[i]) == ENTRY_BLOCK)
            continue;
        int line = line_of_function(context, &all[i]);
        bool is_told_lambda = told && is_lambda(&all[i]) && is_name_of_function(told, "operator()");
        if (is_told_lambda || (line > nearest && line <= context->spot->line)) {
            nearest = is_told_lambda ? INT_MAX : line;
            context->depth = end - i;
            memcpy(context->around, &all[i], context->depth * sizeof *all);
        }
        end = i;
    }
    return nearest > 0;
}

bool context_begin(struct context *context, struct debug_info *info, const struct spot_of_code *spot)
{
    *context = (struct context){.info = info, .spot = spot};
    return debug_info_unit(info, spot->address, &context->unit) && find_around(context);
}

static bool is_variable(const struct entry *entry, const void *name)
{
    return entry_kind(entry) == ENTRY_VARIABLE && is_named(entry, name);
}

static bool is_local(const struct entry *entry, const void *name)
{
    return is_variable(entry, name) || (entry_kind(entry) == ENTRY_PARAMETER && is_named(entry, name));
}

/* A variable of the function. What was left out where it was inlined stands in the function itself. */
bool find_local(const struct context *context, const char *name, struct entry *found)
{
    for (size_t i = context->depth; i-- > 0;)
        if (entry_find(&context->around[i], is_local, name, ENTRY_BLOCK, i == 0 ? UINT_MAX : 0, found))
            return true;
    struct entry function = context->around[0];
    for (unsigned origins = 0; origins < 3 && entry_origin(&function, &function); origins++)
        if (entry_find(&function, is_local, name, ENTRY_BLOCK, UINT_MAX, found))
            return true;
    return false;
}

bool find_global(const struct entry *around, const char *name, struct entry *found)
{
    return entry_find(around, is_variable, name, ENTRY_NAMESPACE, UINT_MAX, found);
}

char *function_at(struct debug_info *info, const struct spot_of_code *spot, long *line)
{
    struct context context;
    if (!context_begin(&context, info, spot))
        return NULL;
    struct entry function = context.around[0];
    const char *name = entry_name(&function);
    *line = line_of_function(&context, &function);
    *line = *line ? *line : spot->line;
    function = entry_first_said(&function);
    return name ? entry_whole_name(&function, name) : NULL;
}

bool is_name_of_function(const char *told, const char *whole)
{
    const char *told_last = last_part(told), *last = last_part(whole);
    /* What a template gives stands before its name, and what it was made for after the other one. */
    if (strncmp(told_last, "operator", 8) != 0 && strrchr(told_last, ' '))
        told_last = strrchr(told_last, ' ') + 1;
    size_t length = strncmp(last, "operator", 8) == 0 ? strlen(last) : strcspn(last, "<");
    return length > 0 && strncmp(told_last, last, length) == 0;
}
