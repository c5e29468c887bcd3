#include "debug_types.h"

/* So many other names and qualities a type has at most: a circle of them is none. */
enum { DEEP = 32 };

bool type_plain(struct entry type, struct plain_type *found)
{
    *found = (struct plain_type){.entry = type};
    for (unsigned deep = 0; deep < DEEP; deep++) {
        switch (entry_kind(&found->entry)) {
        case ENTRY_TYPEDEF:
            found->other_name = found->entry;
            found->has_other_name = true;
            break;
        case ENTRY_CONST:
        case ENTRY_VOLATILE:
        case ENTRY_RESTRICT:
        case ENTRY_ATOMIC:
            break;
        default:
            return true;
        }
        if (!entry_type(&found->entry, &found->entry))
            return false;
    }
    return false;
}

bool type_is_class(const struct entry *type)
{
    enum entry_kind kind = entry_kind(type);
    return kind == ENTRY_CLASS || kind == ENTRY_STRUCTURE || kind == ENTRY_UNION;
}

uint64_t type_size(struct entry type)
{
    uint64_t elements = 1;
    for (unsigned deep = 0; deep < DEEP && elements > 0; deep++) {
        uint64_t size = entry_size(&type);
        if (size > 0)
            return size > UINT32_MAX ? 0 : size * elements;
        if (entry_kind(&type) == ENTRY_ARRAY)
            elements *= entry_elements(&type);
        if (elements > UINT32_MAX || !entry_type(&type, &type))
            return 0;
    }
    return 0;
}
