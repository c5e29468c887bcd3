#include "site_parts.h"

#include <stdlib.h>
#include <string.h>

bool site_parts_read(struct site_parts *parts, const char *site)
{
    const char *colon = site ? strrchr(site, ':') : NULL;
    size_t digits = colon ? strspn(colon + 1, "0123456789") : 0;
    if (!colon || colon == site || digits == 0 || digits > 9 || colon[1 + digits])
        return false;
    *parts = (struct site_parts){site, (size_t)(colon - site), atol(colon + 1)};
    return !(parts->length == 1 && *site == '?');
}
