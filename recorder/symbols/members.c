#include "members.h"

#include "allocation.h"
#include "expression_values.h"
#include "files.h"
#include "scopes.h"
#include "source_names.h"
#include "source_text.h"

#include <ctype.h>
#include <limits.h>
#include <stdio.h>
#include <stdlib.h>
#include <string.h>

/* The object that the function is of; of a lambda what it has taken with it. */
static bool find_this(const struct context *context, struct value *value)
{
    *value = (struct value){0};
    return (find_local(context, "this", &value->variable) || find_local(context, "__closure", &value->variable))
        && entry_type(&value->variable, &value->type) && dereference(value, "operator->");
}

/* Of the object of the function. A lambda may have taken another one's with it. */
static bool select_own(const struct context *context, const char *name, struct value *value)
{
    char taken[PATH_MOST];
    if (!find_this(context, value))
        return false;
    struct value object = *value;
    snprintf(taken, sizeof taken, "__%s", name);
    if (select_member(value, name) || (*value = object, select_member(value, taken)))
        return true;
    for (int i = 0; i < 2; i++) {
        *value = object;
        if (select_member(value, i ? "__this" : "this") && dereference(value, "operator->") && select_member(value, name))
            return true;
    }
    return false;
}

static bool is_called(const struct entry *entry, const void *name)
{
    struct entry type;
    return entry_kind(entry) == ENTRY_FUNCTION && is_named(entry, name) && entry_type(entry, &type);
}

static bool find_called(const struct entry *around, const char *name, struct entry *type)
{
    struct entry function;
    return entry_find(around, is_called, name, ENTRY_NAMESPACE, UINT_MAX, &function) && entry_type(&function, type);
}

/* A name at the head of an expression. */
static bool find_named(const struct context *context, const char *name, struct value *value)
{
    uint64_t address;
    const char *last = last_part(name);
    *value = (struct value){0};
    if (strcmp(name, "this") == 0)
        return find_local(context, name, &value->variable) && entry_type(&value->variable, &value->type);
    if (last == name && find_local(context, name, &value->variable)) {
        value->is_fixed = entry_address(&value->variable, &address);
        return entry_type(&value->variable, &value->type);
    }
    if (last == name && select_own(context, name, value))
        return true;
    *value = (struct value){.is_fixed = true};
    return find_global(&context->unit, last, &value->variable) && entry_type(&value->variable, &value->type);
}

/* The length of a name, with what stands before `::` in it. */
static size_t name_length(const char *at)
{
    size_t length = 0;
    while (isalnum((unsigned char)at[length]) || at[length] == '_' || (at[length] == ':' && at[length + 1] == ':')
        || (at[length] == ':' && length > 0 && at[length - 1] == ':'))
        length++;
    return length;
}

static bool read_expression(const struct context *context, const char *text, struct value *value, unsigned deep);

/* `(*p)`, or another expression in brackets; no cast. */
static bool read_bracket(const struct context *context, const char *at, const char *after, struct value *value,
    unsigned deep)
{
    bool is_pointed = at[1] == '*', is_address = at[1] == '&';
    char *inside = copy_bytes(at + 1 + (is_pointed || is_address), (size_t)(after - at) - 2 - (is_pointed || is_address));
    bool is_read = read_expression(context, inside, value, deep + 1) && (!is_pointed || dereference(value, "operator*"));
    free(inside);
    return is_read && !is_address;
}

static bool read_head(const struct context *context, const char **at, struct value *value, unsigned deep)
{
    if (**at == '(') {
        const char *after = after_bracket(*at, *at + strlen(*at));
        bool is_read = after && read_bracket(context, *at, after, value, deep);
        *at = after;
        return is_read;
    }
    size_t length = name_length(*at);
    char *name = copy_bytes(*at, length);
    *at += length;
    bool is_read = false;
    if (length > 0 && **at == '(') {
        *at = after_bracket(*at, *at + strlen(*at));
        struct value object;
        *value = (struct value){.is_element = true};
        is_read = *at
            && ((find_this(context, &object) && (*value = object, call_member(value, name)))
                || (*value = (struct value){.is_element = true}, find_called(&context->unit, name, &value->type)));
    } else if (length > 0) {
        is_read = find_named(context, name, value);
    }
    free(name);
    return is_read;
}

/* What follows the head: `.name`, `->name`, their calls, and `[..]`. An arrow at the end leads to the object alone. */
static bool read_tail(const char **at, struct value *value)
{
    if (**at == '[') {
        const char *after = after_bracket(*at, *at + strlen(*at));
        char *told = copy_bytes(*at, after ? (size_t)(after - *at) : 0);
        leave_indices_out(told);
        bool is_read = after && select_element(value, told);
        free(told);
        *at = after;
        return is_read;
    }
    bool is_arrow = (*at)[0] == '-' && (*at)[1] == '>';
    if (!is_arrow && **at != '.')
        return false;
    *at += is_arrow ? 2 : 1;
    if (is_arrow && !dereference(value, "operator->"))
        return false;
    if (!**at)
        return is_arrow;
    size_t length = name_length(*at);
    char *name = copy_bytes(*at, length);
    *at += length;
    bool is_call = **at == '(', is_read;
    if (is_call)
        *at = after_bracket(*at, *at + strlen(*at));
    is_read = length > 0 && *at && (is_call ? call_member(value, name) : select_member(value, name));
    free(name);
    return is_read;
}

static bool read_expression(const struct context *context, const char *text, struct value *value, unsigned deep)
{
    const char *at = text;
    if (deep > 8 || !read_head(context, &at, value, deep))
        return false;
    while (*at)
        if (!read_tail(&at, value))
            return false;
    return true;
}

static bool ends_with(const char *text, const char *end)
{
    size_t length = strlen(text), wanted = strlen(end);
    return length >= wanted && strcmp(text + length - wanted, end) == 0;
}

/* The class's name; NULL where it has none. What one file alone can have is told with that. */
static char *class_name(const struct plain_type *class)
{
    const char *own = entry_name(&class->entry), *file = entry_file(&class->entry);
    const struct entry *named = &class->entry;
    if (!own && class->has_other_name) {
        named = &class->other_name;
        own = entry_name(named);
    }
    return own && file ? entry_whole_name(named, own) : NULL;
}

static void name_of_class(const struct value *value, struct member *member)
{
    const char *file = entry_file(&value->owner.entry);
    char *class = class_name(&value->owner);
    if (!class)
        return;
    bool is_private = ends_with(file, ".c") || strstr(class, "{anonymous}");
    member->name = say_text("%s::%s%s%s%s", class, value->path, is_private ? " (" : "",
        is_private ? file_base(file) : "", is_private ? ")" : "");
    member->identity = say_text("class %s::%s %s", class, value->path, file);
    free(class);
}

static void name_of_variable(const struct value *value, struct member *member)
{
    struct entry origin;
    const struct entry *variable = &value->variable;
    const char *name = entry_name(variable), *file = entry_file(variable);
    if (!name || !file)
        return;
    char *whole = entry_whole_name(entry_origin(variable, &origin) ? &origin : variable, name);
    member->name = say_text("%s->%s", whole, value->path);
    member->identity = say_text("variable %s->%s %s", whole, value->path, file);
    free(whole);
}

struct member member_of(struct debug_info *info, const struct spot_of_code *spot, const char *expression)
{
    struct member member = {0};
    struct context context;
    struct value value;
    struct plain_type type;
    if (!context_begin(&context, info, spot) || !read_expression(&context, expression, &value, 0)
        || !type_plain(value.type, &type) || is_pointer(&type.entry))
        return member;
    member.size = type_size(type.entry);
    member.is_variable = value.is_fixed && value.hops == 0;
    if (!value.path[0] || member.is_variable)
        return member;
    if (value.is_fixed && value.hops == 1 && !value.is_element)
        name_of_variable(&value, &member);
    else
        name_of_class(&value, &member);
    return member;
}

void member_end(struct member *member)
{
    free(member->name);
    free(member->identity);
    *member = (struct member){0};
}
