#include "lasting_variables.h"

#include "allocation.h"
#include "declarations.h"
#include "source_names.h"
#include "texts.h"
#include "variables.h"

#include <stdlib.h>
#include <string.h>

struct binary *binary_of_object(const struct declared *declared, uint32_t object)
{
    const char *path = object_of(declared, object)->path;
    return path ? symbols_binary(declared->symbols, path) : NULL;
}

size_t length_without_number(const char *symbol)
{
    size_t length = strlen(symbol), digits = 0;
    while (digits < length && symbol[length - digits - 1] >= '0' && symbol[length - digits - 1] <= '9')
        digits++;
    return digits > 0 && digits < length && symbol[length - digits - 1] == '.' ? length - digits - 1 : length;
}

/*
 * The variable, as its symbol says it in C++, and else debug information: clang's lacks the function of some that are a
 * function's own, which its symbol has (`function.variable`).
 */
static char *whole_name(const struct declared *declared, const struct variable *variable, const char *by_debug)
{
    const char *symbol = variable->name;
    const char *said = symbol ? symbols_name(declared->symbols, symbol) : by_debug;
    if (symbol && strcmp(said, symbol) == 0 && strncmp(by_debug, "?::", 3) != 0)
        said = by_debug;
    size_t length = symbol && said == symbol ? length_without_number(said) : strlen(said);
    char *name = copy_bytes(said, length), *dot = said == symbol ? strchr(name, '.') : NULL;
    if (dot) {
        *dot = '\0';
        char *parted = say_text("%s::%s", name, dot + 1);
        free(name);
        name = parted;
    }
    return name;
}

char *variable_part(const struct declared *declared, const struct variable *variable, uint64_t few, bool is_any)
{
    struct binary *binary = binary_of_object(declared, variable->object);
    struct debug_info *info = binary ? binary_debug(binary) : NULL;
    struct part_of_variable part = {0};
    char *said = NULL;
    if (info)
        part = part_of_variable(info, variable->offset, few, is_any);
    if (part.variable) {
        char *name = whole_name(declared, variable, part.variable);
        said = say_text("%s%s", name, part.path);
        free(name);
    }
    part_of_variable_end(&part);
    return said;
}

const char *variable_lock_name(const struct declared *declared, const struct variable *variable)
{
    char *part = variable_part(declared, variable, UINT64_MAX, false);
    if (!part)
        return variable_name(declared, variable);
    char *name = variable->file ? say_text("%s (%s)", part, variable->file) : copy(part);
    clean_name(name);
    const char *kept = texts_copy(declared->derived, name, strlen(name));
    free(part);
    free(name);
    return kept;
}
