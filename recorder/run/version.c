#include "version.h"

#include <stdlib.h>
#include <string.h>

#include "format.h"
#include "usage.h"

bool version_is_own(const char *bytes, size_t length)
{
    static const char before[] = " " WORD_VERSION " ";
    const char *end = length > 0 ? memchr(bytes, '\n', length) : NULL;
    if (!end)
        return true;
    const char *word = memmem(bytes, (size_t)(end - bytes), before, sizeof before - 1);
    return word && strtol(word + sizeof before - 1, NULL, 10) == FORMAT_VERSION;
}

void version_check(const char *path, const char *bytes, size_t length)
{
    static const char begin[ASKED_AT + 1] = WORD_ASKED " ", none[ASKED_AT];
    size_t seen = length < ASKED_AT ? length : ASKED_AT;
    if (seen == 0 || memcmp(bytes, none, seen) == 0)
        return;
    if (seen < ASKED_AT || memcmp(bytes, begin, ASKED_AT) != 0)
        refuse_target("%s isn't a recorder's file", path);
    if (!version_is_own(bytes, length))
        refuse_target("%s is of a recorder of another version, whose files this one can't read", path);
}
