/* Holds what recorder/symbols/libdw.h says of elfutils' libdw against its headers. It is compiled, and never run. */
#include <elfutils/libdwfl.h>

#define LIBDW_ENTRY Dwarf_Die
#define LIBDW_ATTRIBUTE Dwarf_Attribute
#define LIBDW_OPERATION Dwarf_Op
#define LIBDW_SEARCH Dwfl_Callbacks
#include "libdw.h"

#define CHECK(gives, name, symbol, takes) gives(*const check_##name) takes = symbol;
EACH_LIBDW(CHECK)

#define IS_LIKE(own, theirs, member, their_member)                                                                     \
    _Static_assert(offsetof(own, member) == offsetof(theirs, their_member), #member)
_Static_assert(sizeof(struct entry) == sizeof(Dwarf_Die), "entry");
_Static_assert(sizeof(struct attribute) == sizeof(Dwarf_Attribute), "attribute");
_Static_assert(sizeof(struct operation) == sizeof(Dwarf_Op), "operation");
_Static_assert(sizeof(struct search_for_debug) == sizeof(Dwfl_Callbacks), "search_for_debug");
IS_LIKE(struct operation, Dwarf_Op, atom, atom);
IS_LIKE(struct operation, Dwarf_Op, number, number);
IS_LIKE(struct search_for_debug, Dwfl_Callbacks, find_debug, find_debuginfo);
IS_LIKE(struct search_for_debug, Dwfl_Callbacks, find_address, section_address);
IS_LIKE(struct search_for_debug, Dwfl_Callbacks, folders, debuginfo_path);
