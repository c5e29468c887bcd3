#include "notes.h"

#include "texts.h"

#include <stdlib.h>
#include <string.h>

void notes_end(struct notes *notes)
{
    free(notes->spot);
    free(notes->frames);
    free(notes->event);
    free(notes->alias);
    free(notes->matched);
    free(notes->blind);
    free(notes->library);
    free(notes->lock);
    single_end(&notes->single);
    ignored_types_end(&notes->ignored);
    lock_pairs_end(&notes->pairs);
    texts_end(notes->texts);
    texts_end(notes->derived);
    *notes = (struct notes){0};
}

const char *notes_type(const struct notes *notes, const char *number)
{
    size_t type = strtoul(number, NULL, 10);
    const char *name = type < notes->single.types ? notes->single.type[type] : NULL;
    return name ? name : number;
}

const struct lock_name *notes_lock(const struct notes *notes, unsigned number)
{
    static const struct lock_name none = {.name = "", .type = "", .class = ""};
    return number > 0 && number <= notes->locks ? &notes->lock[number - 1] : &none;
}

const char *notes_lock_type(const struct notes *notes, const char *name)
{
    for (size_t i = 0; i < notes->locks; i++)
        if (strcmp(notes->lock[i].name, name) == 0)
            return notes->lock[i].type;
    return name;
}

const struct event *notes_thread(const struct notes *notes, unsigned seat, size_t events)
{
    for (size_t i = events; i > 0; i--)
        if (notes->event[i - 1].kind == EVENT_THREAD && notes->event[i - 1].seat == seat)
            return &notes->event[i - 1];
    return NULL;
}

struct code_place notes_variable(const struct notes *notes, const char *type)
{
    struct code_place found = {0};
    for (size_t i = 0; i < notes->locks; i++) {
        const struct code_place *variable = &notes->lock[i].variable;
        if (strcmp(notes->lock[i].type, type) != 0)
            continue;
        if (!variable->object
            || (found.object && (found.offset != variable->offset || strcmp(found.object, variable->object) != 0)))
            return (struct code_place){0};
        found = *variable;
    }
    return found;
}

const struct alias *notes_alias(const struct notes *notes, const char *type)
{
    for (size_t i = notes->aliases; i > 0; i--)
        if (strcmp(notes->alias[i - 1].type, type) == 0)
            return &notes->alias[i - 1];
    return NULL;
}

const struct spot *notes_spot(const struct notes *notes, size_t number)
{
    return number > 0 && number <= notes->spots ? &notes->spot[number - 1] : NULL;
}

const char *notes_site(const struct notes *notes, size_t number)
{
    const struct spot *spot = notes_spot(notes, number);
    return spot ? spot->site : "?:0";
}

const struct frames *notes_frames(const struct notes *notes, size_t number)
{
    const struct spot *spot = notes_spot(notes, number);
    return spot && spot->frames > 0 && spot->frames <= notes->framed ? &notes->frames[spot->frames - 1] : NULL;
}
