#include "demangle.h"

#include <dlfcn.h>
#include <stdbool.h>
#include <stdlib.h>
#include <string.h>

#include "source_names.h"

enum { HASH_DIGITS = 16 };

typedef char *demangler(const char *mangled, char *to, size_t *room, int *status);

static demangler *find_demangler(void)
{
    static const char *const libraries[] = {"libstdc++.so.6", "libc++abi.so.1"};
    static demangler *found;
    static bool is_looked_for;
    for (size_t i = 0; i < sizeof libraries / sizeof *libraries && !found && !is_looked_for; i++) {
        void *library = dlopen(libraries[i], RTLD_NOW | RTLD_LOCAL);
        void *function = library ? dlsym(library, "__cxa_demangle") : NULL;
        memcpy(&found, &function, sizeof found);
    }
    is_looked_for = true;
    return found;
}

/* A byte of Rust's that no name of C++'s may have: how it is written, and what it is. */
static const struct {
    const char *written;
    char is;
} escapes[] = {{"$SP$", '@'}, {"$BP$", '*'}, {"$RF$", '&'}, {"$LT$", '<'}, {"$GT$", '>'}, {"$LP$", '('}, {"$RP$", ')'},
    {"$C$", ','}};

/* How long what is written there is, and the byte; 0 where it is none of these. */
static size_t escaped(const char *at, char *is)
{
    for (size_t i = 0; i < sizeof escapes / sizeof *escapes; i++)
        if (strncmp(at, escapes[i].written, strlen(escapes[i].written)) == 0) {
            *is = escapes[i].is;
            return strlen(escapes[i].written);
        }
    char *end;
    unsigned long number = strncmp(at, "$u", 2) == 0 ? strtoul(at + 2, &end, 16) : 0;
    if (number < ' ' || number > '~' || *end != '$')
        return 0;
    *is = (char)number;
    return (size_t)(end - at) + 1;
}

/* The name of Rust's, in place. One part that begins with an escape has `_` before it. */
static void undo_rust(char *name)
{
    char *to = name;
    for (const char *from = name; *from;) {
        bool begins = to == name || to[-1] == ':';
        from += begins && from[0] == '_' && from[1] == '$';
        size_t length = *from == '$' ? escaped(from, to) : 0;
        if (length > 0) {
            to++;
            from += length;
        } else if (strncmp(from, "..", 2) == 0) {
            *to++ = ':';
            *to++ = ':';
            from += 2;
        } else {
            *to++ = *from++;
        }
    }
    *to = '\0';
}

/* Rust's end with a hash. */
static bool is_of_rust(const char *mangled)
{
    static const char before[] = "17h";
    size_t length = strlen(mangled), end = sizeof before - 1 + HASH_DIGITS + 1;
    const char *at = length > end ? mangled + length - end : "";
    return strncmp(at, before, sizeof before - 1) == 0
        && strspn(at + sizeof before - 1, "0123456789abcdef") == HASH_DIGITS && mangled[length - 1] == 'E';
}

char *demangle(const char *mangled)
{
    int status = 0;
    demangler *reads = strncmp(mangled, "_Z", 2) == 0 ? find_demangler() : NULL;
    char *name = reads ? reads(mangled, NULL, NULL, &status) : NULL;
    if (name && is_of_rust(mangled)) {
        leave_hash_out(name);
        undo_rust(name);
    }
    return name;
}
