#include "sites.h"

#include "allocation.h"
#include "source_names.h"

#include <inttypes.h>
#include <stdlib.h>
#include <string.h>

/* So much of a file's name a trace has room for. */
enum { FILE_MOST = 255 };

static const char nowhere[] = "?:0";

void sites_begin(struct sites *sites, const struct declared *declared, const char *directory, struct texts *texts)
{
    *sites = (struct sites){declared, directory ? directory : "", texts, NULL, 0};
}

void sites_end(struct sites *sites)
{
    free(sites->site);
    sites->site = NULL;
}

const struct code *code_of(const struct declared *declared, const struct place *place)
{
    return place->site ? place->site : binary_code(object_of(declared, place->object)->binary, place->offset);
}

size_t telling_frame(const struct code *code, size_t from)
{
    while (from < code->count && code->frame[from].is_skipped)
        from++;
    return from;
}

/* In the library's own object nothing of the program is inlined. */
bool place_says(const struct declared *declared, const struct place *place)
{
    const char *path = object_of(declared, place->object)->path;
    if (path && is_library_object(path))
        return false;
    const struct code *code = code_of(declared, place);
    if (code->count > 0)
        return telling_frame(code, 0) < code->count;
    return place->function && is_callback(place->function);
}

const struct place *chosen_place(const struct declared *declared, const struct place *place)
{
    while (place->kind == PLACE_PAIR) {
        const struct place *library = place_of(declared, place->library);
        place = place_says(declared, library) ? library : place_of(declared, place->rest);
    }
    return place;
}

const char *function_of(const struct declared *declared, const struct place *place)
{
    const struct code *code = code_of(declared, place);
    if (code->function)
        return code->function;
    return place->function ? symbols_function(declared->symbols, place->function) : NULL;
}

char *unknown_place(const struct declared *declared, const struct place *place)
{
    const char *object = object_name(declared, place->object), *function = function_of(declared, place);
    if (!place->function)
        return say_text("%s+0x%" PRIx64, object, place->offset);
    return say_text("%s+0x%" PRIx64 "(%s+0x%" PRIx64 ")", object, place->offset, function, place->within);
}

const char *word_of(struct sites *sites, const char *text)
{
    char *word = copy(text);
    clean_word(word);
    const char *kept = texts_copy(sites->texts, word, strlen(word));
    free(word);
    return kept;
}

const char *shown_line(const struct sites *sites, const char *line)
{
    size_t length = strlen(sites->directory);
    return length > 0 && strncmp(line, sites->directory, length) == 0 && line[length] == '/' ? line + length + 1 : line;
}

/* Of the file's name the end is kept. */
static const char *cut_site(const char *site)
{
    size_t file = (size_t)(strrchr(site, ':') - site);
    return file > FILE_MOST ? site + file - FILE_MOST : site;
}

char *source_of(const struct declared *declared, const struct place *place)
{
    place = chosen_place(declared, place);
    if (place->kind == PLACE_NONE)
        return copy(nowhere);
    const struct code *code = code_of(declared, place);
    if (code->count > 0) {
        size_t number = telling_frame(code, 0);
        return copy(code->frame[number == code->count ? number - 1 : number].site);
    }
    char *unknown = unknown_place(declared, place), *site = say_text("%s:0", unknown);
    free(unknown);
    return site;
}

static const char *find_site(struct sites *sites, const struct place *place)
{
    char *source = source_of(sites->declared, place);
    const char *word = cut_site(word_of(sites, shown_line(sites, source)));
    free(source);
    return word;
}

const char *site_of(struct sites *sites, uint32_t place)
{
    const struct declared *declared = sites->declared;
    uint32_t at = place < declared->places ? declared->place_at[place] : 0;
    if (at == 0)
        return nowhere;
    if (at > sites->room) {
        sites->site = grow_zeroed(sites->site, sites->room, declared->placed_room, sizeof *sites->site);
        sites->room = declared->placed_room;
    }
    if (!sites->site[at - 1])
        sites->site[at - 1] = find_site(sites, &declared->place[at - 1]);
    return sites->site[at - 1];
}
