#include "single.h"

#include <stdlib.h>
#include <string.h>

#include "format.h"

/* What a line tells of a pair, and of itself. */
struct told {
    struct single_pair pair;
    bool has_errand; /* the last one is its thread's */
};

static void read_letter(char letter, struct told *told)
{
    struct single_pair *pair = &told->pair;
    pair->under |= letter == 'u';
    pair->is_further |= letter == 'm';
    told->has_errand |= letter == *PAIR_HAS_ERRAND;
    if (letter == 'l')
        pair->how = SINGLE_FOR_A_TIME;
    else if (letter == 'p')
        pair->how = SINGLE_REPEATEDLY;
    else if (letter == 'w')
        pair->how = SINGLE_AS_A_WAIT_ENDS;
}

/* A lock of the pair, which the letters after its mode tell more of. */
static bool read_lock(const struct line *line, unsigned field, struct single_lock *lock, struct told *told)
{
    if (!field_number(line, field, UINT32_MAX, &lock->number)
        || !field_number(line, field + PAIR_SERIAL, UINT32_MAX, &lock->serial) || field + PAIR_MODE >= line->count)
        return false;
    const struct field *mode = &line->field[field + PAIR_MODE];
    lock->shared = *mode->at == 's';
    for (size_t i = 1; i < mode->length; i++)
        read_letter(mode->at[i], told);
    return true;
}

struct key {
    uint32_t word[3];
};

static struct key key_of(const struct single_pair *pair)
{
    return (struct key){{pair->held.serial, pair->asked.serial,
        (uint32_t)pair->how << 3 | (uint32_t)pair->under << 2 | (uint32_t)pair->held.shared << 1 | pair->asked.shared}};
}

/* The pair that this one tells more of, or a new one. */
static struct single_pair *slot_of(struct single *single, const struct single_pair *pair)
{
    struct key key = key_of(pair);
    size_t *number = map_add(&single->by_key, &key, sizeof key);
    if (*number == 0) {
        ADD(single->pair, single->pairs, single->pair_room) = *pair;
        *number = single->pairs;
    }
    return &single->pair[*number - 1];
}

const struct single_pair *single_pair_like(const struct single *single, const struct single_pair *like)
{
    struct key key = key_of(like);
    size_t number = map_find(&single->by_key, &key, sizeof key);
    return number > 0 ? &single->pair[number - 1] : NULL;
}

/* The numbers in the trace are the last ones that the locks had. */
static void take_news(struct single_pair *pair, const struct single_pair *told)
{
    if (told->held.number)
        pair->held = told->held;
    if (told->asked.number)
        pair->asked = told->asked;
    pair->is_further |= told->is_further;
}

/* Of a pair whose line has no errand: its thread got the one lock. */
static void add_plain_errand(struct single *single, const struct told *told, long thread, uint32_t place)
{
    ADD(single->errand, single->errands, single->errand_room) = (struct single_errand){thread, single->steps, 1, false};
    ADD(single->step, single->steps, single->step_room) = (struct single_step){.serial = told->pair.held.serial,
        .place = place,
        .gets = true,
        .shared = told->pair.held.shared};
}

/* TOOK: where the held lock was acquired. Where the errand isn't there, nothing is known of the way. */
static void add_telling(struct single *single, struct single_pair *pair, const struct told *told,
    struct single_telling telling, uint32_t took)
{
    if (!told->has_errand)
        add_plain_errand(single, told, telling.thread, took);
    if (single->errands == 0 || single->errand[single->errands - 1].thread != telling.thread)
        return;
    telling.errand = single->errands - 1;
    telling.before = pair->told;
    ADD(single->telling, single->tellings, single->telling_room) = telling;
    pair->told = single->tellings;
}

void single_reads_pair(struct single *single, const struct line *line, uint32_t held, uint32_t asked)
{
    struct told told = {.pair = {.held.type = held, .asked.type = asked}};
    struct single_telling telling = {0};
    uint32_t thread, took;
    if (!field_number(line, 2, UINT32_MAX, &thread) || !field_number(line, 3, UINT32_MAX, &telling.when)
        || !field_number(line, 4, UINT32_MAX, &telling.place) || !field_number(line, 5, UINT32_MAX, &took)
        || !read_lock(line, PAIR_HELD, &told.pair.held, &told) || !read_lock(line, PAIR_ASKED, &told.pair.asked, &told))
        return;
    telling.thread = thread;
    struct single_pair *pair = slot_of(single, &told.pair);
    take_news(pair, &told.pair);
    add_telling(single, pair, &told, telling, took);
}

/* A number after a space, before the line's end. */
static bool read_number(const char **at, const char *end, uint32_t *number)
{
    const char *from = *at;
    uint64_t read = 0;
    if (from == end || *from++ != ' ' || from == end || *from < '0' || *from > '9')
        return false;
    for (; from < end && *from >= '0' && *from <= '9' && read <= UINT32_MAX; from++)
        read = read * 10 + (uint64_t)(*from - '0');
    *at = from;
    *number = (uint32_t)read;
    return read <= UINT32_MAX && (from == end || *from == ' ');
}

/* A lock that was got, which its mode begins, or that was let go. That it was tried is passed over. */
static bool read_step(const char **at, const char *end, struct single_step *step)
{
    const char *how = *at + 1;
    if (end - *at < 2 || **at != ' ' || !strchr("sx" ERRAND_LETS_GO, *how))
        return false;
    *step = (struct single_step){.gets = *how != *ERRAND_LETS_GO, .shared = *how == 's'};
    *at = how + 1 + (how[1] == ERRAND_TRIED);
    return read_number(at, end, &step->serial) && (!step->gets || read_number(at, end, &step->place));
}

/* After a malformed step it isn't known, as where the line says so. It may have more fields than a line. */
void single_reads_errand(struct single *single, const struct line *line)
{
    const char *at = line->field[0].at + line->field[0].length;
    uint32_t thread = 0;
    struct single_step step;
    struct single_errand errand = {.first = single->steps};
    bool is_whole = read_number(&at, line->end, &thread);
    while (is_whole && at < line->end && (is_whole = read_step(&at, line->end, &step)))
        ADD(single->step, single->steps, single->step_room) = step;
    errand.thread = thread;
    errand.is_cut = !is_whole;
    errand.steps = single->steps - errand.first;
    ADD(single->errand, single->errands, single->errand_room) = errand;
}

void single_end(struct single *single)
{
    map_end(&single->by_key);
    free(single->type);
    free(single->pair);
    free(single->telling);
    free(single->errand);
    free(single->step);
    free(single->site);
    free(single->told.bytes);
    free(single->lives.bytes);
    memset(single, 0, sizeof *single);
}

const char *single_site(const struct single *single, uint32_t place)
{
    return place > 0 && place < single->sites ? single->site[place] : NULL;
}
