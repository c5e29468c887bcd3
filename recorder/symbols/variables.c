#include "variables.h"

#include "allocation.h"
#include "debug_types.h"
#include "files.h"
#include "source_names.h"

#include <inttypes.h>
#include <stdlib.h>
#include <string.h>

enum { DEEP = 32 };

struct part {
    struct entry type;
    uint64_t offset;   /* in it */
    uint64_t elements; /* so many of that type are in the arrays that it is in */
    char *name;
};

static void append(struct part *part, const char *more)
{
    char *longer = say_text("%s%s", part->name, more);
    free(part->name);
    part->name = longer;
}

/* Whether the type is a lock, or another one of a library's or of witness.hpp, whose own parts say nothing. */
static bool is_of_system(const struct plain_type *type)
{
    const char *file = entry_file(&type->entry);
    return file
        && (strncmp(file, "/usr/include/", 13) == 0 || strncmp(file, "/usr/lib/", 9) == 0 || is_of_library("", file)
            || strcmp(file_base(file), "witness.hpp") == 0);
}

static bool select_element(struct part *part, const struct entry *array, uint64_t few, bool is_any)
{
    uint64_t elements = entry_elements(array), size;
    if (!entry_type(array, &part->type))
        return false;
    size = type_size(part->type);
    if (elements == 0 || size == 0)
        return false;
    char *index = elements > few || is_any ? copy("[]") : say_text("[%" PRIu64 "]", part->offset / size);
    append(part, index);
    free(index);
    part->offset %= size;
    if (__builtin_mul_overflow(part->elements, elements, &part->elements))
        part->elements = UINT64_MAX;
    return true;
}

/* The member, or the base, that has the offset. */
static bool select_member(struct part *part, const struct entry *class)
{
    struct entry at, type;
    for (bool more = entry_first(class, &at); more; more = entry_next(&at, &at)) {
        enum entry_kind kind = entry_kind(&at);
        if ((kind != ENTRY_MEMBER && kind != ENTRY_BASE_CLASS) || entry_is_declaration(&at) || !entry_type(&at, &type))
            continue;
        uint64_t from = entry_offset_in_class(&at), size = type_size(type);
        const char *name = kind == ENTRY_MEMBER ? entry_name(&at) : NULL;
        if (part->offset < from || part->offset - from >= size)
            continue;
        append(part, name ? "." : "");
        append(part, name ? name : "");
        part->offset -= from;
        part->type = type;
        return true;
    }
    return false;
}

static bool select_part(struct part *part, uint64_t few, bool is_any)
{
    struct plain_type type;
    for (unsigned deep = 0; deep < DEEP; deep++) {
        if (!type_plain(part->type, &type))
            return false;
        if (is_of_system(&type))
            return true;
        bool is_array = entry_kind(&type.entry) == ENTRY_ARRAY;
        if (!is_array && !type_is_class(&type.entry))
            return true;
        if (is_array ? !select_element(part, &type.entry, few, is_any) : !select_member(part, &type.entry))
            return false;
    }
    return false;
}

struct part_of_variable part_of_variable(struct debug_info *info, uint64_t address, uint64_t few, bool is_any_element)
{
    struct part_of_variable found = {0};
    struct part part = {0};
    const struct fixed_variable *variable = debug_info_variable(info, address);
    if (!variable || !variable->name || !entry_type(&variable->entry, &part.type))
        return found;
    part.offset = address - variable->address;
    part.elements = 1;
    part.name = copy("");
    bool is_selected = select_part(&part, few, is_any_element);
    if (is_selected && part.elements > few && !is_any_element) {
        free(part.name);
        return part_of_variable(info, address, few, true);
    }
    if (is_selected) {
        found.variable = copy(variable->name);
        found.path = part.name;
    } else {
        free(part.name);
    }
    return found;
}

void part_of_variable_end(struct part_of_variable *part)
{
    free(part->variable);
    free(part->path);
    *part = (struct part_of_variable){0};
}
