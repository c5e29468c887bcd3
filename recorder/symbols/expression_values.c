#include "expression_values.h"

#include "scopes.h"

#include <stdio.h>
#include <string.h>

enum { DEEP = 48 };

static bool is_reference(const struct entry *type)
{
    enum entry_kind kind = entry_kind(type);
    return kind == ENTRY_REFERENCE || kind == ENTRY_RIGHT_REFERENCE;
}

bool is_pointer(const struct entry *type)
{
    return entry_kind(type) == ENTRY_POINTER || is_reference(type);
}

/* The member of that name, and the class that declares it, which may be a base of this one. */
static bool find_member(const struct plain_type *class, const char *name, unsigned deep, struct entry *member,
    struct plain_type *owner)
{
    struct entry at, type;
    struct plain_type inner;
    for (bool more = deep < DEEP && entry_first(&class->entry, &at); more; more = entry_next(&at, &at)) {
        enum entry_kind kind = entry_kind(&at);
        if (kind != ENTRY_MEMBER && kind != ENTRY_BASE_CLASS)
            continue;
        if (kind == ENTRY_MEMBER && is_named(&at, name)) {
            *member = at;
            *owner = *class;
            return true;
        }
        bool is_nameless = kind == ENTRY_MEMBER && !entry_name(&at);
        if ((kind == ENTRY_MEMBER && !is_nameless) || !entry_type(&at, &type) || !type_plain(type, &inner))
            continue;
        if (type_is_class(&inner.entry) && find_member(&inner, name, deep + 1, member, owner)) {
            *owner = is_nameless ? *class : *owner;
            return true;
        }
    }
    return false;
}

/* What the class's function of that name gives. */
static bool find_given(const struct entry *class, const char *name, unsigned deep, struct entry *type)
{
    struct entry at, base;
    struct plain_type inner;
    for (bool more = deep < DEEP && entry_first(class, &at); more; more = entry_next(&at, &at)) {
        enum entry_kind kind = entry_kind(&at);
        if (kind == ENTRY_FUNCTION && is_named(&at, name) && entry_type(&at, type))
            return true;
        if (kind == ENTRY_BASE_CLASS && entry_type(&at, &base) && type_plain(base, &inner)
            && find_given(&inner.entry, name, deep + 1, type))
            return true;
    }
    return false;
}

/* From a pointer or a reference to what it leads to: an object of its own. */
static bool hop(struct value *value, const struct entry *pointer)
{
    value->path[0] = '\0';
    value->hops++;
    return value->hops < DEEP && entry_type(pointer, &value->type);
}

static bool pass_references(struct value *value, struct plain_type *type)
{
    if (!type_plain(value->type, type))
        return false;
    while (is_reference(&type->entry))
        if (!hop(value, &type->entry) || !type_plain(value->type, type))
            return false;
    return true;
}

/* To the object that a pointer, or what is like one, leads to. */
bool dereference(struct value *value, const char *operator)
{
    struct plain_type type;
    if (!pass_references(value, &type))
        return false;
    if (entry_kind(&type.entry) == ENTRY_POINTER)
        return hop(value, &type.entry);
    if (!type_is_class(&type.entry) || !find_given(&type.entry, operator, 0, &value->type)
        || !type_plain(value->type, &type))
        return false;
    return is_pointer(&type.entry) ? hop(value, &type.entry) : false;
}

static bool append(struct value *value, const char *before, const char *name)
{
    size_t length = strlen(value->path);
    int more = snprintf(value->path + length, PATH_MOST - length, "%s%s", before, name);
    return more > 0 && (size_t)more < PATH_MOST - length;
}

bool select_member(struct value *value, const char *name)
{
    struct plain_type type, owner;
    struct entry member;
    if (!pass_references(value, &type) || !type_is_class(&type.entry) || !find_member(&type, name, 0, &member, &owner))
        return false;
    if (!value->path[0])
        value->owner = owner;
    return append(value, value->path[0] ? "." : "", name) && entry_type(&member, &value->type);
}

bool select_element(struct value *value, const char *told)
{
    struct plain_type type;
    if (!pass_references(value, &type))
        return false;
    if (entry_kind(&type.entry) == ENTRY_ARRAY)
        return (!value->path[0] || append(value, "", told)) && entry_type(&type.entry, &value->type);
    value->is_element = true;
    return dereference(value, "operator[]");
}

bool call_member(struct value *value, const char *name)
{
    struct plain_type type;
    value->is_element = true;
    return pass_references(value, &type) && type_is_class(&type.entry) && find_given(&type.entry, name, 0, &value->type);
}
