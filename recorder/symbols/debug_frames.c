#include "debug_frames.h"

#include <string.h>

#include "allocation.h"
#include "demangle.h"

/* A lambda that wasn't inlined has a name in the object alone. */
static char *lambda_in_object(struct debug_info *info, const struct entry *function, uint64_t address)
{
    const char *own = entry_name(function);
    bool is_lambda = own && strcmp(own, "operator()") == 0 && entry_kind(function) == ENTRY_FUNCTION;
    const char *symbol = is_lambda ? debug_info_symbol(info, address) : NULL;
    return symbol ? demangle(symbol) : NULL;
}

/* A lambda's class has no name: then what is around it is left out. In place. */
static char *without_nameless(char *whole)
{
    static const char nameless[] = "?::";
    char *from = whole;
    for (char *at = strstr(whole, nameless); at; at = strstr(at + 1, nameless))
        from = at + sizeof nameless - 1;
    memmove(whole, from, strlen(from) + 1);
    return whole;
}

static char *name_of(struct debug_info *info, const struct entry *function, uint64_t address)
{
    const char *linked = entry_linkage_name(function);
    char *name = linked ? demangle(linked) : lambda_in_object(info, function, address);
    if (name)
        return name;
    struct entry said = entry_first_said(function);
    const char *own = entry_name(&said);
    return own ? without_nameless(entry_whole_name(&said, own)) : NULL;
}

static char *site_said(const struct entry *unit, const char *file, uint64_t line)
{
    if (!file || line == 0 || line > INT32_MAX)
        return NULL;
    const char *folder = *file == '/' ? NULL : unit_folder(unit);
    return say_text("%s%s%s:%d", folder ? folder : "", folder ? "/" : "", file, (int)line);
}

/* What calls the inlined one stands one frame further out. */
size_t debug_info_frames(struct debug_info *info, uint64_t address, struct debug_frame *frame, size_t most)
{
    struct entry unit, around[SCOPES_MOST];
    if (!debug_info_unit(info, address, &unit))
        return 0;
    size_t count = 0, depth = debug_info_around(info, &unit, address, around);
    uint64_t line, column;
    const char *file = debug_info_row(&unit, address, &line);
    for (size_t i = depth; i-- > 0 && count < most;) {
        if (entry_kind(&around[i]) == ENTRY_BLOCK)
            continue;
        frame[count++] = (struct debug_frame){name_of(info, &around[i], address), site_said(&unit, file, line)};
        file = entry_call_file(&around[i], &unit);
        if (!entry_call(&around[i], &line, &column))
            line = 0;
    }
    return count;
}
