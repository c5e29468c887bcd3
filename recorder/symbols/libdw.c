#include "libdw.h"

#include <dlfcn.h>
#include <string.h>

struct libdw libdw;

#define FUNCTION(gives, name, symbol, takes) {#symbol, &libdw.name},
static const struct {
    const char *name;
    void *function; /* a pointer to one of libdw's functions */
} functions[] = {EACH_LIBDW(FUNCTION)};

bool libdw_loads(void)
{
    if (libdw.is_looked_for)
        return libdw.library != NULL;
    libdw.is_looked_for = true;
    void *library = dlopen("libdw.so.1", RTLD_NOW | RTLD_LOCAL);
    for (size_t i = 0; library && i < sizeof functions / sizeof *functions; i++) {
        void *found = dlsym(library, functions[i].name);
        if (!found)
            return false;
        memcpy(functions[i].function, &found, sizeof found);
    }
    libdw.library = library;
    return library != NULL;
}
