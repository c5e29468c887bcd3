#include "columns.h"

#include <stdlib.h>
#include <string.h>

#include "allocation.h"
#include "declarations.h"
#include "label.h"
#include "map.h"
#include "sites.h"
#include "texts.h"

/* Of a line that was inlined so often no more of its places are looked at. */
enum { LOOKS_MOST = 32 };

/* A line, and the first place that it was met at. */
struct known_line {
    uint32_t place;
    size_t frame;
    unsigned looks, column; /* how many places more were looked at; the column of the first one */
    bool is_parted;
};

struct columns {
    struct map by_site; /* a line's number, from 1 on */
    struct known_line *line;
    size_t lines, room;
};

struct columns *columns_new(void)
{
    return take(sizeof(struct columns));
}

void columns_end(struct columns *columns)
{
    if (!columns)
        return;
    map_end(&columns->by_site);
    free(columns->line);
    free(columns);
}

unsigned column_at(const struct declared *declared, const struct place *place, size_t frame, const char *site)
{
    const char *colon = site ? strrchr(site, ':') : NULL;
    struct binary *binary = place->kind == PLACE_CALL ? object_of(declared, place->object)->binary : NULL;
    struct debug_info *info = colon && binary ? binary_debug(binary) : NULL;
    return info ? debug_info_column(info, place->offset, frame, strtoul(colon + 1, NULL, 10)) : 0;
}

static void look_at(const struct declared *declared, struct known_line *line, const struct place *place, size_t frame,
    const char *site)
{
    const struct place *first = place_of(declared, line->place);
    bool is_first = first->object == place->object && first->offset == place->offset;
    if (is_first || line->is_parted || line->looks == LOOKS_MOST)
        return;
    if (line->looks++ == 0)
        line->column = column_at(declared, first, line->frame, site);
    unsigned column = line->column ? column_at(declared, place, frame, site) : 0;
    line->is_parted = column != 0 && column != line->column;
}

static bool read_place(const struct declared *declared, uint32_t number_of_place)
{
    struct columns *columns = declared->columns;
    const struct place *place = place_of(declared, number_of_place);
    const struct code *code = code_of(declared, place);
    bool parts = false;
    for (size_t frame = telling_frame(code, 0); frame < code->count; frame = telling_frame(code, frame + 1)) {
        size_t *number = map_add_text(&columns->by_site, code->frame[frame].site);
        if (*number == 0) {
            ADD(columns->line, columns->lines, columns->room) =
                (struct known_line){.place = number_of_place, .frame = frame};
            *number = columns->lines;
        } else {
            struct known_line *line = &columns->line[*number - 1];
            bool was_parted = line->is_parted;
            look_at(declared, line, place, frame, code->frame[frame].site);
            parts |= line->is_parted && !was_parted;
        }
    }
    return parts;
}

bool columns_go_on(struct declared *declared)
{
    bool parts = false;
    if (declared->deepest == 0)
        return false;
    for (size_t i = 0; i < declared->calls; i++)
        parts |= read_place(declared, declared->call[i]);
    declared->calls = 0;
    return parts;
}

unsigned column_that_parts(const struct declared *declared, const struct place *place, size_t frame, const char *site)
{
    const struct columns *columns = declared->columns;
    size_t number = map_find_text(&columns->by_site, site);
    return number && columns->line[number - 1].is_parted ? column_at(declared, place, frame, site) : 0;
}

/* The label without its column, a text of one's own. */
static char *without_column(const char *label)
{
    return say_text("%.*s)", (int)label_column(label), label);
}

/* By its label without a column: the type's number, or SIZE_MAX where others differ in their columns. */
static void count_label(struct map *labels, const struct declared *declared, uint32_t number)
{
    char *plain = without_column(declared->type[number].given);
    size_t *first = map_add_text(labels, plain);
    if (*first == 0)
        *first = number;
    else if (*first != SIZE_MAX && labels_part(declared->type[*first].given, declared->type[number].given))
        *first = SIZE_MAX;
    free(plain);
}

/* Of a label that has a column. */
static void give_label(const struct map *labels, struct declared *declared, struct type *type)
{
    char *plain = without_column(type->given);
    type->column = (uint32_t)strtoul(type->given + label_column(type->given) + 1, NULL, 10);
    type->label = type->given;
    if (map_find_text(labels, plain) != SIZE_MAX)
        type->label = texts_copy(declared->derived, plain, strlen(plain));
    free(plain);
}

void columns_of_labels(struct declared *declared)
{
    struct map labels = {0};
    for (uint32_t i = 1; i < declared->types; i++)
        if (declared->type[i].given && label_column(declared->type[i].given) > 0)
            count_label(&labels, declared, i);
    for (uint32_t i = 1; i < declared->types; i++)
        if (declared->type[i].given && label_column(declared->type[i].given) > 0)
            give_label(&labels, declared, &declared->type[i]);
    map_end(&labels);
}
