#include "debug_info.h"

#include "allocation.h"
#include "debug_types.h"
#include "files.h"
#include "libdw.h"

#include <stdlib.h>
#include <unistd.h>

struct unit {
    struct entry entry;
    struct entry *function;
    size_t functions, room;
    struct fixed_variable *fixed;
    size_t fixeds, fixed_room;
    bool is_read;
};

struct debug_info {
    struct Dwfl *search;
    struct Dwfl_Module *object;
    struct Dwarf *handle;
    uint64_t shift; /* from addresses as the file has them to those of the object */
    struct unit *unit;
    size_t units, unit_room;
    struct fixed_variable *last; /* that was asked for: many locks stand in one variable */
    size_t last_unit;            /* that had an address, where the file has no table of them */
};

/* Of one file the addresses in its debug information are those that the file has. */
static bool find(struct debug_info *info, const char *path)
{
    /* libdw keeps it. */
    static struct search_for_debug search;
    search = (struct search_for_debug){NULL, libdw.find_debug, libdw.section_address, NULL};
    struct stat found;
    int file = file_open_regular(path, &found);
    info->search = file >= 0 ? libdw.begin(&search) : NULL;
    struct Dwfl_Module *object = info->search ? libdw.file(info->search, path, path, file) : NULL;
    if (!object && file >= 0)
        close(file);
    if (!object)
        return false;
    libdw.files_end(info->search, NULL, NULL);
    info->object = object;
    info->handle = libdw.debug_of(object, &info->shift);
    return info->handle != NULL;
}

static bool read_units(struct debug_info *info)
{
    uint64_t at = 0, next, abbreviations;
    size_t head;
    uint8_t address_bytes, offset_bytes;
    while (libdw.next_unit(info->handle, at, &next, &head, &abbreviations, &address_bytes, &offset_bytes) == 0) {
        struct unit unit = {0};
        if (libdw.entry_at(info->handle, at + head, &unit.entry))
            ADD(info->unit, info->units, info->unit_room) = unit;
        at = next;
    }
    return info->units > 0;
}

struct debug_info *debug_info_open(const char *path)
{
    if (!libdw_loads())
        return NULL;
    struct debug_info *info = take(sizeof *info);
    if (find(info, path) && read_units(info))
        return info;
    debug_info_end(info);
    return NULL;
}

const char *debug_info_symbol(const struct debug_info *info, uint64_t address)
{
    return libdw.symbol(info->object, address + info->shift);
}

static void unit_end(struct unit *unit)
{
    for (size_t i = 0; i < unit->fixeds; i++)
        free(unit->fixed[i].name);
    free(unit->function);
    free(unit->fixed);
}

void debug_info_end(struct debug_info *info)
{
    if (!info)
        return;
    if (info->search)
        libdw.end(info->search);
    for (size_t i = 0; i < info->units; i++)
        unit_end(&info->unit[i]);
    free(info->unit);
    free(info);
}

bool debug_info_any_unit(const struct debug_info *info, bool (*is)(const struct entry *unit, const void *context),
    const void *context)
{
    for (size_t i = 0; i < info->units; i++)
        if (is(&info->unit[i].entry, context))
            return true;
    return false;
}

bool debug_info_unit(struct debug_info *info, uint64_t address, struct entry *unit)
{
    if (libdw.unit_at(info->handle, address, unit))
        return true;
    for (size_t i = 0; i < info->units; i++) {
        size_t number = (info->last_unit + i) % info->units;
        if (entry_has_code_at(&info->unit[number].entry, address)) {
            info->last_unit = number;
            *unit = info->unit[number].entry;
            return true;
        }
    }
    return false;
}

const char *debug_info_row(const struct entry *unit, uint64_t address, uint64_t *line)
{
    struct Dwarf_Line_s *row = libdw.row_at(libdw_raw(unit), address);
    int at = 0;
    bool is_known = row && libdw.row_line(row, &at) == 0 && at > 0;
    *line = is_known ? (uint64_t)at : 0;
    return is_known ? libdw.row_file(row, NULL, NULL) : NULL;
}

/* Where the innermost code at the address comes from. */
static unsigned column_of_row(const struct entry *unit, uint64_t address, unsigned long line)
{
    struct Dwarf_Line_s *row = libdw.row_at(libdw_raw(unit), address);
    int at = 0, column = 0;
    bool is_known = row && libdw.row_line(row, &at) == 0 && libdw.row_column(row, &column) == 0;
    return is_known && at > 0 && (unsigned long)at == line && column > 0 ? (unsigned)column : 0;
}

/* Where the inlined function of that number was called; the innermost one is 1. */
static unsigned column_of_call(struct debug_info *info, const struct entry *unit, uint64_t address, size_t number,
    unsigned long line)
{
    struct entry around[SCOPES_MOST];
    uint64_t at, column;
    for (size_t i = debug_info_around(info, unit, address, around); i-- > 0;)
        if (entry_kind(&around[i]) == ENTRY_INLINED && --number == 0)
            return entry_call(&around[i], &at, &column) && at == line && column <= UINT16_MAX ? (unsigned)column : 0;
    return 0;
}

unsigned debug_info_column(struct debug_info *info, uint64_t address, size_t frame, unsigned long line)
{
    struct entry unit;
    if (!debug_info_unit(info, address, &unit))
        return 0;
    return frame == 0 ? column_of_row(&unit, address, line) : column_of_call(info, &unit, address, frame, line);
}

static bool may_have_functions(enum entry_kind kind)
{
    return kind == ENTRY_NAMESPACE || kind == ENTRY_CLASS || kind == ENTRY_STRUCTURE || kind == ENTRY_UNION
        || kind == ENTRY_FUNCTION || kind == ENTRY_BLOCK;
}

static void add_fixed(struct unit *unit, const struct entry *variable)
{
    struct fixed_variable fixed = {.entry = *variable};
    struct entry type;
    if (!entry_address(variable, &fixed.address) || !entry_type(variable, &type))
        return;
    fixed.size = type_size(type);
    ADD(unit->fixed, unit->fixeds, unit->fixed_room) = fixed;
}

/* Functions stand in functions, too: those of a class that one has. */
static void add_entries(struct unit *unit, const struct entry *around)
{
    struct entry at;
    for (bool more = entry_first(around, &at); more; more = entry_next(&at, &at)) {
        enum entry_kind kind = entry_kind(&at);
        if (kind == ENTRY_FUNCTION && entry_has_code(&at))
            ADD(unit->function, unit->functions, unit->room) = at;
        if (kind == ENTRY_VARIABLE)
            add_fixed(unit, &at);
        if (may_have_functions(kind))
            add_entries(unit, &at);
    }
}

static void read_unit(struct unit *unit)
{
    if (!unit->is_read)
        add_entries(unit, &unit->entry);
    unit->is_read = true;
}

const struct entry *debug_info_functions(struct debug_info *info, const struct entry *entry, size_t *count)
{
    uint64_t offset = libdw.offset(libdw_raw(entry));
    for (size_t i = 0; i < info->units; i++) {
        struct unit *unit = &info->unit[i];
        if (libdw.offset(&unit->entry) != offset)
            continue;
        read_unit(unit);
        *count = unit->functions;
        return unit->function;
    }
    *count = 0;
    return NULL;
}

static bool is_scope_at(const struct entry *entry, const void *address)
{
    enum entry_kind kind = entry_kind(entry);
    return (kind == ENTRY_BLOCK || kind == ENTRY_INLINED) && entry_has_code_at(entry, *(const uint64_t *)address);
}

size_t debug_info_around(struct debug_info *info, const struct entry *unit, uint64_t address,
    struct entry around[SCOPES_MOST])
{
    size_t functions, depth = 0;
    const struct entry *function = debug_info_functions(info, unit, &functions);
    for (size_t i = 0; i < functions && depth == 0; i++)
        if (entry_has_code_at(&function[i], address))
            around[depth++] = function[i];
    while (depth > 0 && depth < SCOPES_MOST
        && entry_find(&around[depth - 1], is_scope_at, &address, ENTRY_BLOCK, 0, &around[depth]))
        depth++;
    return depth;
}

static bool has_address(const struct fixed_variable *fixed, uint64_t address)
{
    return address >= fixed->address && address - fixed->address < fixed->size;
}

/* It takes long to find what is around an entry. */
static void find_name(struct fixed_variable *fixed)
{
    struct entry origin;
    const char *name = entry_name(&fixed->entry);
    if (name)
        fixed->name = entry_whole_name(entry_origin(&fixed->entry, &origin) ? &origin : &fixed->entry, name);
}

const struct fixed_variable *debug_info_variable(struct debug_info *info, uint64_t address)
{
    if (info->last && has_address(info->last, address))
        return info->last;
    for (size_t i = 0; i < info->units; i++) {
        struct unit *unit = &info->unit[i];
        read_unit(unit);
        for (size_t j = 0; j < unit->fixeds; j++) {
            struct fixed_variable *fixed = &unit->fixed[j];
            if (!has_address(fixed, address))
                continue;
            if (!fixed->name)
                find_name(fixed);
            return info->last = fixed;
        }
    }
    return NULL;
}
