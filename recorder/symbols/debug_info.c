#include "debug_info.h"

#include "allocation.h"
#include "libdw.h"

#include <stdlib.h>

/* Attributes, a language's number and an operation, as DWARF numbers them. */
enum {
    ATTRIBUTE_LOCATION = 0x02,
    ATTRIBUTE_BYTE_SIZE = 0x0b,
    ATTRIBUTE_UPPER_BOUND = 0x2f,
    ATTRIBUTE_COUNT = 0x37,
    ATTRIBUTE_LOW_PC = 0x11,
    ATTRIBUTE_FOLDER = 0x1b,
    ATTRIBUTE_ABSTRACT_ORIGIN = 0x31,
    ATTRIBUTE_MEMBER_LOCATION = 0x38,
    ATTRIBUTE_FILE = 0x3a,
    ATTRIBUTE_DECLARATION = 0x3c,
    ATTRIBUTE_SPECIFICATION = 0x47,
    ATTRIBUTE_TYPE = 0x49,
    ATTRIBUTE_RANGES = 0x55,
    ATTRIBUTE_CALL_COLUMN = 0x57,
    ATTRIBUTE_CALL_FILE = 0x58,
    ATTRIBUTE_CALL_LINE = 0x59,
    ATTRIBUTE_LINKAGE_NAME = 0x6e,
    ATTRIBUTE_OLD_LINKAGE_NAME = 0x2007,
    OPERATION_ADDRESS = 0x03,
    OPERATION_NUMBERED = 0xa1, /* an address by its number in a table */
};

enum entry_kind entry_kind(const struct entry *entry)
{
    return (enum entry_kind)libdw.tag(libdw_raw(entry));
}

const char *entry_name(const struct entry *entry)
{
    return libdw.name(libdw_raw(entry));
}

bool entry_first(const struct entry *entry, struct entry *inside)
{
    return libdw.child(libdw_raw(entry), inside) == 0;
}

bool entry_next(const struct entry *entry, struct entry *next)
{
    struct entry found;
    if (libdw.sibling(libdw_raw(entry), &found) != 0)
        return false;
    *next = found;
    return true;
}

bool entry_find(const struct entry *around, bool (*is)(const struct entry *entry, const void *given), const void *given,
    enum entry_kind outer, unsigned deep, struct entry *found)
{
    struct entry at;
    for (bool more = entry_first(around, &at); more; more = entry_next(&at, &at)) {
        if (is(&at, given)) {
            *found = at;
            return true;
        }
        if (deep > 0 && entry_kind(&at) == outer && entry_find(&at, is, given, outer, deep - 1, found))
            return true;
    }
    return false;
}

bool entry_has_code_at(const struct entry *entry, uint64_t address)
{
    return libdw.has_pc(libdw_raw(entry), address) > 0;
}

static bool has_attribute(const struct entry *entry, unsigned name)
{
    struct attribute attribute;
    return libdw.attribute(libdw_raw(entry), name, &attribute) != NULL;
}

bool entry_has_code(const struct entry *entry)
{
    return has_attribute(entry, ATTRIBUTE_LOW_PC) || has_attribute(entry, ATTRIBUTE_RANGES);
}

bool entry_is_declaration(const struct entry *entry)
{
    struct attribute attribute;
    bool is_set = false;
    return libdw.attribute(libdw_raw(entry), ATTRIBUTE_DECLARATION, &attribute) && libdw.flag(&attribute, &is_set) == 0
        && is_set;
}

bool entry_type(const struct entry *entry, struct entry *type)
{
    struct attribute attribute;
    struct entry found;
    if (!libdw.any_attribute(libdw_raw(entry), ATTRIBUTE_TYPE, &attribute) || !libdw.reference(&attribute, &found))
        return false;
    *type = found;
    return true;
}

bool entry_origin(const struct entry *entry, struct entry *origin)
{
    struct attribute attribute;
    struct entry found;
    bool has_one = libdw.attribute(libdw_raw(entry), ATTRIBUTE_ABSTRACT_ORIGIN, &attribute)
        || libdw.attribute(libdw_raw(entry), ATTRIBUTE_SPECIFICATION, &attribute);
    if (!has_one || !libdw.reference(&attribute, &found))
        return false;
    *origin = found;
    return true;
}

/* A damaged file may lead back to where it began. */
struct entry entry_first_said(const struct entry *entry)
{
    enum { ORIGINS_MOST = 8 };
    struct entry first = *entry;
    for (unsigned origins = 0; origins < ORIGINS_MOST && entry_origin(&first, &first);)
        origins++;
    return first;
}

static bool number_of(const struct entry *entry, unsigned name, uint64_t *number)
{
    struct attribute attribute;
    return libdw.any_attribute(libdw_raw(entry), name, &attribute) && libdw.number(&attribute, number) == 0;
}

uint64_t entry_size(const struct entry *entry)
{
    uint64_t size = 0;
    return number_of(entry, ATTRIBUTE_BYTE_SIZE, &size) ? size : 0;
}

uint64_t entry_elements(const struct entry *entry)
{
    struct entry range;
    uint64_t elements = 1, number;
    bool has_range = false;
    for (bool more = entry_first(entry, &range); more; more = entry_next(&range, &range)) {
        if (entry_kind(&range) != ENTRY_RANGE)
            continue;
        if (number_of(&range, ATTRIBUTE_UPPER_BOUND, &number))
            number++;
        else if (!number_of(&range, ATTRIBUTE_COUNT, &number))
            return 0;
        if (number > UINT32_MAX || elements > UINT32_MAX)
            return 0;
        elements *= number;
        has_range = true;
    }
    return has_range ? elements : 0;
}

uint64_t entry_offset_in_class(const struct entry *entry)
{
    uint64_t offset = 0;
    return number_of(entry, ATTRIBUTE_MEMBER_LOCATION, &offset) ? offset : 0;
}

bool entry_address(const struct entry *entry, uint64_t *address)
{
    struct attribute attribute, numbered;
    struct operation *operation;
    size_t operations;
    if (!libdw.any_attribute(libdw_raw(entry), ATTRIBUTE_LOCATION, &attribute)
        || libdw.location(&attribute, &operation, &operations) != 0 || operations != 1)
        return false;
    if (operation->atom == OPERATION_NUMBERED)
        return libdw.location_attribute(&attribute, operation, &numbered) == 0 && libdw.address(&numbered, address) == 0;
    *address = operation->number;
    return operation->atom == OPERATION_ADDRESS;
}

/* From DWARF 5 on a unit's own file has the number 0, which libdw takes for none. */
const char *entry_file(const struct entry *entry)
{
    const char *file = libdw.declared_in(libdw_raw(entry));
    struct entry unit;
    uint64_t number;
    if (file || !number_of(entry, ATTRIBUTE_FILE, &number) || number != 0)
        return file;
    return libdw.unit(libdw_raw(entry), &unit, NULL, NULL) ? entry_name(&unit) : NULL;
}

int entry_line(const struct entry *entry)
{
    int line = 0;
    return libdw.line(libdw_raw(entry), &line) == 0 ? line : 0;
}

bool entry_call(const struct entry *entry, uint64_t *line, uint64_t *column)
{
    if (!number_of(entry, ATTRIBUTE_CALL_COLUMN, column))
        *column = 0;
    return number_of(entry, ATTRIBUTE_CALL_LINE, line);
}

const char *entry_call_file(const struct entry *entry, const struct entry *unit)
{
    struct Dwarf_Files_s *files;
    size_t count;
    uint64_t number;
    if (!number_of(entry, ATTRIBUTE_CALL_FILE, &number) || libdw.files(libdw_raw(unit), &files, &count) != 0
        || number >= count)
        return NULL;
    return libdw.file_of(files, (size_t)number, NULL, NULL);
}

static const char *text_of(const struct entry *entry, unsigned name)
{
    struct attribute attribute;
    return libdw.any_attribute(libdw_raw(entry), name, &attribute) ? libdw.text(&attribute) : NULL;
}

const char *entry_linkage_name(const struct entry *entry)
{
    const char *name = text_of(entry, ATTRIBUTE_LINKAGE_NAME);
    return name ? name : text_of(entry, ATTRIBUTE_OLD_LINKAGE_NAME);
}

const char *unit_folder(const struct entry *unit)
{
    return text_of(unit, ATTRIBUTE_FOLDER);
}

static bool is_around(enum entry_kind kind)
{
    return kind == ENTRY_NAMESPACE || kind == ENTRY_CLASS || kind == ENTRY_STRUCTURE || kind == ENTRY_UNION
        || kind == ENTRY_FUNCTION;
}

char *entry_whole_name(const struct entry *entry, const char *own)
{
    struct entry *scope = NULL;
    int scopes = libdw.scopes(libdw_raw(entry), &scope);
    char *name = copy(own);
    for (int i = 1; i < scopes; i++) {
        if (!is_around(entry_kind(&scope[i])))
            continue;
        const char *around = entry_name(&scope[i]);
        bool is_nameless_space = !around && entry_kind(&scope[i]) == ENTRY_NAMESPACE;
        char *longer = say_text("%s::%s", around ? around : is_nameless_space ? "{anonymous}" : "?", name);
        free(name);
        name = longer;
    }
    if (scopes > 0)
        free(scope);
    return name;
}
