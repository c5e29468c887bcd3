#include "ignored_types.h"

#include <stdlib.h>
#include <string.h>

#include "allocation.h"

void ignored_types_end(struct ignored_types *ignored)
{
    map_end(&ignored->names);
    map_end(&ignored->known);
    free(ignored->pair);
    texts_end(ignored->texts);
    *ignored = (struct ignored_types){0};
}

/* Both names, in whichever order they come: a text of one's own. */
static char *either(const char *one, const char *other)
{
    return strcmp(one, other) < 0 ? say_text("%s\n%s", one, other) : say_text("%s\n%s", other, one);
}

enum ignored_cause why_ignored(const struct ignored_types *ignored, const char *held, const char *asked)
{
    if (strcmp(held, asked) == 0)
        return (enum ignored_cause)map_find_text(&ignored->names, held);
    if (ignored->pairs == 0)
        return NOT_IGNORED;
    char *names = either(held, asked);
    size_t number = map_find_text(&ignored->known, names);
    free(names);
    return number ? ignored->pair[number - 1].cause : NOT_IGNORED;
}

void ignored_add_type(struct ignored_types *ignored, const char *name, enum ignored_cause cause)
{
    size_t *known = map_add_text(&ignored->names, name);
    if (*known == NOT_IGNORED)
        *known = cause;
}

void ignored_add_pair(struct ignored_types *ignored, const char *first, const char *second, enum ignored_cause cause)
{
    char *names = either(first, second);
    size_t *number = map_add_text(&ignored->known, names);
    free(names);
    if (*number != 0)
        return;
    if (!ignored->texts)
        ignored->texts = texts_new();
    ADD(ignored->pair, ignored->pairs, ignored->pair_room) = (struct ignored_names){
        texts_copy(ignored->texts, first, strlen(first)), texts_copy(ignored->texts, second, strlen(second)), cause};
    *number = ignored->pairs;
}
