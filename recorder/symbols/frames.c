#include "frames.h"

#include "allocation.h"
#include "source_names.h"

#include <stdlib.h>
#include <string.h>

/* The frames as they are gathered. */
struct gathering {
    struct sites *sites;
    size_t most, count, room;
    struct frame *frame;
    const char *told; /* in place of the next one's site; NULL where nothing is */
};

static void add(struct gathering *gathering, const char *function, const char *site)
{
    const char *there = gathering->told ? gathering->told : word_of(gathering->sites, site);
    gathering->told = NULL;
    ADD(gathering->frame, gathering->count, gathering->room) =
        (struct frame){function ? word_of(gathering->sites, function) : NULL, there};
}

/* Those of one place of the stack. True where no further place is wanted. */
static bool add_place(struct gathering *gathering, const struct place *place)
{
    const struct declared *declared = gathering->sites->declared;
    for (; place->kind == PLACE_PAIR; place = place_of(declared, place->rest)) {
        const struct place *library = place_of(declared, place->library);
        if (place_says(declared, library) && add_place(gathering, library))
            return true;
    }
    if (place->kind == PLACE_NONE)
        return false;
    const struct code *code = code_of(declared, place);
    const char *function = function_of(declared, place);
    if (function && is_thread_begin(function))
        return true;
    if (code->count == 0 && place->function) {
        char *unknown = unknown_place(declared, place);
        add(gathering, function, unknown);
        free(unknown);
    }
    for (size_t number = telling_frame(code, 0); number < code->count && gathering->count < gathering->most;
         number = telling_frame(code, number + 1))
        add(gathering, code->frame[number].function, shown_line(gathering->sites, code->frame[number].site));
    return gathering->count >= gathering->most || (function && strcmp(function, "main") == 0);
}

/*
 * How many places there are up to where the thread begins. That is in functions of the C library which have no name in the
 * object. To know them, its debug information would be read, which may take long.
 */
static size_t places_of_program(const struct declared *declared, const struct stack *stack)
{
    size_t count = stack->count;
    for (; count > 1; count--) {
        const struct place *place = place_of(declared, stack->place[count - 1]);
        const char *path = object_of(declared, place->object)->path;
        if (place->kind != PLACE_CALL || place->function || !path || !is_c_library(path))
            break;
    }
    return count;
}

/* The places of the stack. A first one by name whose function wasn't told is in that of its caller. */
static void add_stack(struct gathering *gathering, const struct stack *stack)
{
    const struct declared *declared = gathering->sites->declared;
    const struct place *first = stack->count > 1 ? place_of(declared, stack->place[0]) : NULL;
    size_t from = first && first->kind == PLACE_SITE && !first->site->function;
    if (from > 0)
        gathering->told = site_of(gathering->sites, stack->place[0]);
    size_t count = places_of_program(declared, stack);
    for (size_t i = from; i < count; i++)
        if (add_place(gathering, place_of(declared, stack->place[i])))
            break;
    if (gathering->told)
        add(gathering, NULL, gathering->told);
}

struct code_place code_place_in(struct sites *sites, uint32_t number, uint64_t offset)
{
    const struct object *object = object_of(sites->declared, number);
    if (!object->path)
        return (struct code_place){0};
    const char *build_id = object->binary ? binary_file(object->binary)->build_id : NULL;
    return (struct code_place){texts_copy(sites->texts, object->path, strlen(object->path)),
        build_id ? texts_copy(sites->texts, build_id, strlen(build_id)) : NULL, offset, false};
}

static struct code_place code_place_of(struct sites *sites, const struct place *place)
{
    if (place->kind == PLACE_SITE) {
        const char *site = place->site->frame[0].site, *colon = strrchr(site, ':');
        return (struct code_place){texts_copy(sites->texts, site, (size_t)(colon - site)), NULL,
            strtoul(colon + 1, NULL, 10), true};
    }
    return place->kind == PLACE_CALL ? code_place_in(sites, place->object, place->offset) : (struct code_place){0};
}

/*
 * The calls up to the first one that can't be found again. Of several functions of the library the first one counts, and what
 * called the last.
 */
static void add_calls(struct frames *frames, struct sites *sites, const uint32_t *number, size_t count)
{
    const struct declared *declared = sites->declared;
    for (size_t i = 0; i < count && frames->calls < CALLS_MOST; i++) {
        const struct place *place = place_of(declared, number[i]), *rest = place;
        while (rest->kind == PLACE_PAIR)
            rest = place_of(declared, rest->rest);
        struct call call = {.code = code_place_of(sites, place)};
        if (place->kind == PLACE_PAIR)
            call = (struct call){code_place_of(sites, place_of(declared, place->library)), code_place_of(sites, rest)};
        if (!call.code.object || (place->kind == PLACE_PAIR && !call.rest.object))
            return;
        frames->call[frames->calls++] = call;
    }
}

void frames_add(struct notes *notes, struct sites *sites, uint32_t place, uint32_t stack, size_t most)
{
    const struct declared *declared = sites->declared;
    struct gathering gathering = {.sites = sites, .most = most};
    if (stack == 0)
        add_place(&gathering, place_of(declared, place));
    else if (stack < declared->stacks)
        add_stack(&gathering, &declared->stack[stack]);
    struct frame *kept = texts_room(sites->texts, gathering.count * sizeof *kept);
    if (gathering.count > 0)
        memcpy(kept, gathering.frame, gathering.count * sizeof *kept);
    free(gathering.frame);
    struct frames frames = {.frame = kept, .count = gathering.count};
    if (stack > 0 && stack < sites->declared->stacks)
        add_calls(&frames, sites, sites->declared->stack[stack].place, sites->declared->stack[stack].count);
    else
        add_calls(&frames, sites, &place, 1);
    ADD(notes->frames, notes->framed, notes->frames_room) = frames;
}
