#include "steps.h"

#include "allocation.h"
#include "columns.h"
#include "files.h"
#include "sites.h"
#include "source_names.h"
#include "texts.h"

#include <inttypes.h>
#include <stdlib.h>

struct walk {
    const struct declared *declared;
    struct steps *steps;
};

static void add(struct walk *walk, struct step step)
{
    struct steps *steps = walk->steps;
    if (steps->count < walk->declared->deepest)
        ADD(steps->step, steps->count, steps->room) = step;
}

static void add_frame(struct walk *walk, const struct place *place, const struct code *code, size_t number)
{
    const struct inlined *frame = &code->frame[number];
    /* Of callers the line counts: objects of one class that a line makes are of one type. */
    unsigned column = walk->steps->count == 0 ? column_that_parts(walk->declared, place, number, frame->site) : 0;
    const char *site = column ? texts_say(walk->declared->derived, "%s:%u", frame->site, column) : frame->site;
    add(walk, (struct step){place, site, file_base(site), frame->function, frame->site, number});
}

/* A place of which the symbols know no line. */
static void add_unknown(struct walk *walk, const struct place *place)
{
    struct texts *texts = walk->declared->derived;
    const char *path = object_of(walk->declared, place->object)->path;
    const char *function = function_of(walk->declared, place);
    const char *identity = texts_say(texts, "%s+%" PRIx64, path ? path : "", place->offset);
    if (place->function) {
        const char *name = texts_say(texts, "%s+0x%" PRIx64, function ? function : "", place->within);
        add(walk, (struct step){place, identity, name, function, NULL, 0});
    } else {
        char *unknown = unknown_place(walk->declared, place);
        const char *name = texts_say(texts, "%s", unknown);
        free(unknown);
        add(walk, (struct step){place, identity, name, name, NULL, 0});
    }
}

/* Whether the place is in C++'s library alone, as that is from which a thread's function is called. */
static bool is_of_library_alone(const struct declared *declared, const struct place *place, const struct code *code)
{
    const char *path = object_of(declared, place->object)->path;
    if (path && is_library_object(path))
        return true;
    return code->count > 0 && telling_frame(code, 0) == code->count;
}

static void add_place(struct walk *walk, const struct place *place)
{
    const struct declared *declared = walk->declared;
    for (; place->kind == PLACE_PAIR; place = place_of(declared, place->rest)) {
        const struct place *library = place_of(declared, place->library);
        if (place_says(declared, library))
            add_place(walk, library);
    }
    const struct code *code = code_of(declared, place);
    if (place->kind == PLACE_NONE || (walk->steps->count > 0 && is_of_library_alone(declared, place, code)))
        return;
    size_t frame = telling_frame(code, 0);
    if (frame == code->count && code->count > 0)
        add_frame(walk, place, code, code->count - 1);
    else if (frame == code->count)
        add_unknown(walk, place);
    for (; frame < code->count; frame = telling_frame(code, frame + 1))
        add_frame(walk, place, code, frame);
}

void steps_begin(struct steps *steps, const struct declared *declared, const struct type *type)
{
    *steps = (struct steps){0};
    struct walk walk = {declared, steps};
    for (size_t i = 0; i < type->count; i++)
        add_place(&walk, place_of(declared, type->place[i]));
}

void steps_end(struct steps *steps)
{
    free(steps->step);
    *steps = (struct steps){0};
}
