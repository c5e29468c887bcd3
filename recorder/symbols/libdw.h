/*
 * elfutils' libdw, which is loaded where it is there. Its headers needn't be: what is called of it is declared here, and held
 * against them by a test where they are.
 */
#ifndef RECORD_LIBDW_H
#define RECORD_LIBDW_H

#include <elf.h>
#include <stdbool.h>
#include <stddef.h>
#include <stdint.h>

#include "debug_info.h"

/* As libdw has them. */
struct attribute {
    unsigned code, form;
    unsigned char *value;
    void *unit;
};
struct operation {
    uint8_t atom;
    uint64_t number, number2, offset;
};

struct Dwfl;
struct Dwfl_Module;
struct Dwarf;
struct Dwarf_Line_s;
struct Dwarf_Files_s;

/* Finds the file with a file's debug information, and answers it opened; below 0 where there is none. */
typedef int finds_debug(struct Dwfl_Module *object, void **users, const char *name, uint64_t base, const char *file,
    const char *link, uint32_t sum, char **found);
typedef int finds_address(struct Dwfl_Module *object, void **users, const char *name, uint64_t base,
    const char *section, uint32_t number, const Elf64_Shdr *head, uint64_t *address);
/* What it calls; of the fourth it takes its own folders where it is NULL. */
struct search_for_debug {
    int (*find_file)(void);
    finds_debug *find_debug;
    finds_address *find_address;
    char **folders;
};

/* The test has those of the headers in their place. */
#ifndef LIBDW_ENTRY
#define LIBDW_ENTRY struct entry
#define LIBDW_ATTRIBUTE struct attribute
#define LIBDW_OPERATION struct operation
#define LIBDW_SEARCH struct search_for_debug
#endif

/* Each function: what it gives, its name here and there, and what it takes. Its interface has versions, and stays. */
#define EACH_LIBDW(EACH)                                                                                                 \
    EACH(struct Dwfl *, begin, dwfl_begin, (const LIBDW_SEARCH *))                                                       \
    EACH(void, end, dwfl_end, (struct Dwfl *))                                                                           \
    EACH(struct Dwfl_Module *, file, dwfl_report_offline, (struct Dwfl *, const char *, const char *, int))              \
    EACH(int, files_end, dwfl_report_end,                                                                                \
        (struct Dwfl *, int (*)(struct Dwfl_Module *, void *, const char *, uint64_t, void *), void *))                  \
    EACH(struct Dwarf *, debug_of, dwfl_module_getdwarf, (struct Dwfl_Module *, uint64_t *))                             \
    EACH(int, find_debug, dwfl_standard_find_debuginfo,                                                                  \
        (struct Dwfl_Module *, void **, const char *, uint64_t, const char *, const char *, uint32_t, char **))          \
    EACH(int, section_address, dwfl_offline_section_address,                                                             \
        (struct Dwfl_Module *, void **, const char *, uint64_t, const char *, uint32_t, const Elf64_Shdr *, uint64_t *)) \
    EACH(const char *, symbol, dwfl_module_addrname, (struct Dwfl_Module *, uint64_t))                                   \
    EACH(int, next_unit, dwarf_nextcu,                                                                                   \
        (struct Dwarf *, uint64_t, uint64_t *, size_t *, uint64_t *, uint8_t *, uint8_t *))                              \
    EACH(LIBDW_ENTRY *, entry_at, dwarf_offdie, (struct Dwarf *, uint64_t, LIBDW_ENTRY *))                               \
    EACH(LIBDW_ENTRY *, unit_at, dwarf_addrdie, (struct Dwarf *, uint64_t, LIBDW_ENTRY *))                               \
    EACH(LIBDW_ENTRY *, unit, dwarf_diecu, (LIBDW_ENTRY *, LIBDW_ENTRY *, uint8_t *, uint8_t *))                         \
    EACH(int, has_pc, dwarf_haspc, (LIBDW_ENTRY *, uint64_t))                                                            \
    EACH(int, child, dwarf_child, (LIBDW_ENTRY *, LIBDW_ENTRY *))                                                        \
    EACH(int, sibling, dwarf_siblingof, (LIBDW_ENTRY *, LIBDW_ENTRY *))                                                  \
    EACH(int, tag, dwarf_tag, (LIBDW_ENTRY *))                                                                           \
    EACH(const char *, name, dwarf_diename, (LIBDW_ENTRY *))                                                             \
    EACH(uint64_t, offset, dwarf_dieoffset, (LIBDW_ENTRY *))                                                             \
    EACH(int, scopes, dwarf_getscopes_die, (LIBDW_ENTRY *, LIBDW_ENTRY **))                                              \
    EACH(LIBDW_ATTRIBUTE *, attribute, dwarf_attr, (LIBDW_ENTRY *, unsigned, LIBDW_ATTRIBUTE *))                         \
    EACH(LIBDW_ATTRIBUTE *, any_attribute, dwarf_attr_integrate, (LIBDW_ENTRY *, unsigned, LIBDW_ATTRIBUTE *))           \
    EACH(LIBDW_ENTRY *, reference, dwarf_formref_die, (LIBDW_ATTRIBUTE *, LIBDW_ENTRY *))                                \
    EACH(int, number, dwarf_formudata, (LIBDW_ATTRIBUTE *, uint64_t *))                                                  \
    EACH(int, flag, dwarf_formflag, (LIBDW_ATTRIBUTE *, bool *))                                                         \
    EACH(const char *, text, dwarf_formstring, (LIBDW_ATTRIBUTE *))                                                      \
    EACH(int, address, dwarf_formaddr, (LIBDW_ATTRIBUTE *, uint64_t *))                                                  \
    EACH(int, location, dwarf_getlocation, (LIBDW_ATTRIBUTE *, LIBDW_OPERATION **, size_t *))                            \
    EACH(int, location_attribute, dwarf_getlocation_attr,                                                                \
        (LIBDW_ATTRIBUTE *, const LIBDW_OPERATION *, LIBDW_ATTRIBUTE *))                                                 \
    EACH(const char *, declared_in, dwarf_decl_file, (LIBDW_ENTRY *))                                                    \
    EACH(int, line, dwarf_decl_line, (LIBDW_ENTRY *, int *))                                                             \
    EACH(struct Dwarf_Line_s *, row_at, dwarf_getsrc_die, (LIBDW_ENTRY *, uint64_t))                                     \
    EACH(int, row_line, dwarf_lineno, (struct Dwarf_Line_s *, int *))                                                    \
    EACH(int, row_column, dwarf_linecol, (struct Dwarf_Line_s *, int *))                                                 \
    EACH(const char *, row_file, dwarf_linesrc, (struct Dwarf_Line_s *, uint64_t *, uint64_t *))                         \
    EACH(int, files, dwarf_getsrcfiles, (LIBDW_ENTRY *, struct Dwarf_Files_s **, size_t *))                              \
    EACH(const char *, file_of, dwarf_filesrc, (struct Dwarf_Files_s *, size_t, uint64_t *, uint64_t *))

#define LIBDW_FUNCTION(gives, name, symbol, takes) gives(*name) takes;
struct libdw {
    bool is_looked_for;
    void *library;
    EACH_LIBDW(LIBDW_FUNCTION)
};
#undef LIBDW_FUNCTION
extern struct libdw libdw;

/* Whether its functions can be called. */
bool libdw_loads(void);

/* libdw takes what it doesn't change without saying so. */
static inline struct entry *libdw_raw(const struct entry *entry)
{
    return (struct entry *)entry;
}

#endif
