/*
 * The debug information of an object's file, as a tree of entries: functions, variables, types and their members. It is read
 * by elfutils' libdw, which is loaded where it is there; else, and of a file that has none, nothing is known.
 */
#ifndef RECORD_DEBUG_INFO_H
#define RECORD_DEBUG_INFO_H

#include <stdbool.h>
#include <stddef.h>
#include <stdint.h>

struct debug_info;

/* As libdw has it: it is copied, and never looked into. */
struct entry {
    void *address, *unit, *abbreviation;
    long padding;
};

/* What an entry is, as DWARF numbers it. */
enum entry_kind {
    ENTRY_ARRAY = 0x01,
    ENTRY_CLASS = 0x02,
    ENTRY_PARAMETER = 0x05,
    ENTRY_BLOCK = 0x0b,
    ENTRY_MEMBER = 0x0d,
    ENTRY_POINTER = 0x0f,
    ENTRY_REFERENCE = 0x10,
    ENTRY_STRUCTURE = 0x13,
    ENTRY_TYPEDEF = 0x16,
    ENTRY_UNION = 0x17,
    ENTRY_BASE_CLASS = 0x1c,
    ENTRY_INLINED = 0x1d,
    ENTRY_RANGE = 0x21,
    ENTRY_CONST = 0x26,
    ENTRY_FUNCTION = 0x2e,
    ENTRY_VARIABLE = 0x34,
    ENTRY_VOLATILE = 0x35,
    ENTRY_RESTRICT = 0x37,
    ENTRY_NAMESPACE = 0x39,
    ENTRY_RIGHT_REFERENCE = 0x42,
    ENTRY_ATOMIC = 0x47,
};

/*
 * NULL where there is none. Where it stands in a file of its own, that is found by the object's build-id or the link in
 * it, as debuggers do; over the net, too, where the user has set DEBUGINFOD_URLS.
 */
struct debug_info *debug_info_open(const char *path);
void debug_info_end(struct debug_info *info); /* NULL is nothing */

enum entry_kind entry_kind(const struct entry *entry);
const char *entry_name(const struct entry *entry); /* NULL where it has none */
/* The first entry inside it, and the next one beside it. False where there is none. */
bool entry_first(const struct entry *entry, struct entry *inside);
bool entry_next(const struct entry *entry, struct entry *next);
/* The first entry inside that is so, by what is given; those of that outer kind are looked into, too, but no deeper. */
bool entry_find(const struct entry *around, bool (*is)(const struct entry *entry, const void *given), const void *given,
    enum entry_kind outer, unsigned deep, struct entry *found);
/* Whether the address is in its code. */
bool entry_has_code_at(const struct entry *entry, uint64_t address);
bool entry_has_code(const struct entry *entry);
/* Whether it is only said that there is one, and how it is made stands elsewhere. */
bool entry_is_declaration(const struct entry *entry);
/* The type of a variable, a member or what a function gives; what a pointer points to. */
bool entry_type(const struct entry *entry, struct entry *type);
/* What was said of it before it was inlined, or put elsewhere. */
bool entry_origin(const struct entry *entry, struct entry *origin);
/* And what was said of that, up to where it was said first; the entry itself where nothing was. */
struct entry entry_first_said(const struct entry *entry);
/* Its size in bytes, or how many elements an array has; 0 where that isn't known. */
uint64_t entry_size(const struct entry *entry);
uint64_t entry_elements(const struct entry *entry);
/* How far from the beginning of its class a member is. */
uint64_t entry_offset_in_class(const struct entry *entry);
/* Where a variable stands that is always at the same address. False of any other one. */
bool entry_address(const struct entry *entry, uint64_t *address);
/* The file and the line in which it is declared: NULL and 0 where that isn't known. */
const char *entry_file(const struct entry *entry);
int entry_line(const struct entry *entry);
/* Of what was inlined: the line of its call, and its column, 0 where that isn't known. False where the line isn't. */
bool entry_call(const struct entry *entry, uint64_t *line, uint64_t *column);
/* And the file, which may begin in the unit's folder; NULL where that isn't known. */
const char *entry_call_file(const struct entry *entry, const struct entry *unit);
/* The folder in which the unit was compiled; NULL where that isn't known. */
const char *unit_folder(const struct entry *unit);
/* The name of a function for the linker; NULL where it has none. */
const char *entry_linkage_name(const struct entry *entry);
/* The name with those of the classes and namespaces around it, as a text of one's own. */
char *entry_whole_name(const struct entry *entry, const char *own);

/* Whether it is so of any unit of compilation. */
bool debug_info_any_unit(const struct debug_info *info, bool (*is)(const struct entry *unit, const void *context),
    const void *context);
/* The unit of compilation that has the address in its code. */
bool debug_info_unit(struct debug_info *info, uint64_t address, struct entry *unit);
/* So many functions and blocks around an address are known at most. */
enum { SCOPES_MOST = 48 };
/* The function of the unit that has the address, and all that has it in there, inlined functions and blocks, inwards. */
size_t debug_info_around(struct debug_info *info, const struct entry *unit, uint64_t address,
    struct entry around[SCOPES_MOST]);
/* The source of the innermost code at the address: the file, which may begin in the unit's folder, and the line; else NULL. */
const char *debug_info_row(const struct entry *unit, uint64_t address, uint64_t *line);
/* The object's own name for what is at the address; NULL where it has none. */
const char *debug_info_symbol(const struct debug_info *info, uint64_t address);
/*
 * The column of the call at that address, in the function of that number: 0 is the innermost of those that were inlined there.
 * 0 where it isn't known, or isn't of that line.
 */
unsigned debug_info_column(struct debug_info *info, uint64_t address, size_t frame, unsigned long line);
/* The functions of a unit that have code: a list that ends with the debug information. */
const struct entry *debug_info_functions(struct debug_info *info, const struct entry *unit, size_t *count);
/* A variable that is always at the same address. */
struct fixed_variable {
    uint64_t address, size;
    struct entry entry;
    char *name; /* with those of what is around it; NULL where it has none, or wasn't asked for yet */
};

/* That which has the address; NULL where there is none. It ends with the debug information. */
const struct fixed_variable *debug_info_variable(struct debug_info *info, uint64_t address);

#endif
