#include "text_search.h"

#include <string.h>

void search_add(struct search *search, const char *text)
{
    size_t length = strlen(text);
    if (search->texts == SEARCH_MOST || length < 2 || length > UINT8_MAX)
        return;
    search->text[search->texts] = text;
    search->length[search->texts++] = length;
    if (search->shortest == 0 || length < search->shortest)
        search->shortest = length;
    if (length > search->longest)
        search->longest = length;
}

static unsigned pair_at(const char *at)
{
    return (unsigned)(unsigned char)at[0] << 8 | (unsigned char)at[1];
}

/* By the first bytes of each text, so many as the shortest has. */
static void prepare(struct search *search)
{
    size_t last = search->shortest - 2;
    memset(search->skip, (int)(last + 1), sizeof search->skip);
    for (size_t i = 0; i < search->texts; i++)
        for (size_t at = 0; at <= last; at++) {
            uint8_t *skip = &search->skip[pair_at(search->text[i] + at)];
            if (*skip > last - at)
                *skip = (uint8_t)(last - at);
        }
    search->prepared = search->texts;
}

void search_in(struct search *search, const char *bytes, size_t length, void (*found)(void *, size_t), void *what)
{
    if (search->texts == 0 || length < search->shortest)
        return;
    if (search->prepared != search->texts)
        prepare(search);
    size_t last = search->shortest - 2;
    const char *end = bytes + length;
    for (const char *at = bytes; at + search->shortest <= end;) {
        size_t skip = search->skip[pair_at(at + last)];
        if (skip > 0) {
            at += skip;
            continue;
        }
        for (size_t i = 0; i < search->texts; i++)
            if ((size_t)(end - at) >= search->length[i] && memcmp(at, search->text[i], search->length[i]) == 0)
                found(what, i);
        at++;
    }
}
