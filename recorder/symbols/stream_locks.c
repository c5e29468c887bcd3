#include "stream_locks.h"

#include "allocation.h"
#include "type_names.h"

#include <stdlib.h>
#include <string.h>

/* `init SEAT CLASS FLAGS TYPE NUMBER-IN-TYPE`, then the variable where the lock stands in one. */
enum { FIELD_TYPE = 4, FIELD_NUMBER = 5, FIELD_VARIABLE = 6 };

/* The type's count, of any number that a stream has. */
static struct lock_count *count_of(struct lock_counts *counts, uint32_t number)
{
    if (number >= counts->types) {
        size_t types = 2 * ((size_t)number + 1);
        counts->of = grow_zeroed(counts->of, counts->types, types, sizeof *counts->of);
        counts->types = types;
    }
    return &counts->of[number];
}

/*
 * The lock's number in its type. Further types may come to be the member's, and types that come from the same source are one:
 * there it is counted on.
 */
static void count(struct made_lock *made, const struct types *types, uint32_t type, struct lock_counts *counts)
{
    made->type = types->type[type].first;
    bool is_new = !count_of(counts, type)->is_met;
    count_of(counts, type)->is_met = true;
    struct lock_count *known = count_of(counts, made->type);
    made->is_types_first = is_new && known->several == 0;
    known->several += is_new;
    if (known->several > 1 || types->type[made->type].is_member)
        made->number = known->highest + 1;
    if (made->number > known->highest)
        known->highest = made->number;
}

bool made_lock_read(struct made_lock *made, const struct line *line, const struct declared *declared,
    const struct types *types, struct lock_counts *counts)
{
    uint32_t type;
    *made = (struct made_lock){0};
    bool is_read = field_number(line, FIELD_NUMBER, UINT32_MAX - 1, &made->number);
    if (field_number(line, FIELD_TYPE, TYPE_MOST - 1, &type) && type > 0 && type < types->count)
        count(made, types, type, counts);
    if (line->count > FIELD_VARIABLE && !read_variable(declared, line, FIELD_VARIABLE, &made->variable))
        made->variable.object = 0;
    return is_read;
}

/* One without a name where it isn't known. */
static const struct named_type *type_of(const struct made_lock *made, const struct types *types)
{
    static const struct named_type nameless = {.name = ""};
    return made->type ? &types->type[made->type] : &nameless;
}

const char *made_type_name(const struct made_lock *made, const struct types *types)
{
    return type_of(made, types)->name;
}

const char *made_lock_name(const struct made_lock *made, const struct declared *declared, const struct types *types)
{
    const struct named_type *type = type_of(made, types);
    return made->variable.object ? variable_lock_in(declared, type, &made->variable)
                                 : numbered_lock_in(declared, type, made->number);
}

void lock_counts_end(struct lock_counts *counts)
{
    free(counts->of);
    *counts = (struct lock_counts){0};
}
