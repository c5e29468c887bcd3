#include "verifier_lines.h"

#include "allocation.h"
#include "format.h"
#include "frames.h"
#include "map.h"
#include "place_words.h"
#include "progress.h"
#include "source_names.h"
#include "stream_locks.h"
#include "texts.h"

#include <inttypes.h>
#include <stdlib.h>
#include <string.h>

enum { LINES_BETWEEN = 1 << 16 };

struct verifier_lines {
    const struct making *making;
    FILE *to;
    struct notes *notes;
    bool has_callers;  /* places are told with their threads and callers */
    struct map spots;  /* by place, stack and thread, from 1 on */
    struct map framed; /* by place and stack, from 1 on */
    struct lock_counts counts;
    struct made_lock *made; /* each lock */
    size_t mades, made_room;
    size_t tellings, steps;     /* of single locks: so many have their sites */
    uint32_t sitter[SEAT_MOST]; /* the thread that has each seat, as the kernel counts; 0 where it isn't known */
    size_t owner[SEAT_MOST];    /* the event that tells the owner of what the seat waits for, from 1 on; 0 for none */
    struct pairs_reading pairs; /* what seats hold, where pairs of locks are noted */
    uint32_t now;               /* in milliseconds */
    unsigned long lines;        /* that were read */
    bool is_odd;
};

/* The line as it stands. */
static void put_line(struct verifier_lines *writing, const struct line *line)
{
    fwrite_unlocked(line->at, 1, (size_t)(line->end - line->at), writing->to);
    putc_unlocked('\n', writing->to);
}

/* An object in which stacks end, once. */
static void note_blind(struct notes *notes, const char *object)
{
    char *name = copy(object);
    clean_name(name);
    if (!has_text(notes->blind, notes->blinds, name))
        ADD(notes->blind, notes->blinds, notes->blind_room) = texts_copy(notes->texts, name, strlen(name));
    free(name);
}

/* What is noted of the whole. */
static void note_whole(struct verifier_lines *writing)
{
    const struct declared *declared = writing->making->declared;
    writing->notes->pending = declared->pending;
    for (uint32_t number = 0; number < declared->objects; number++)
        if (declared->object[number].is_blind)
            note_blind(writing->notes, object_name(declared, number));
}

/* By the file's numbers, since a lock of a pair needn't be one of the trace. */
void verifier_lines_note_types(struct verifier_lines *writing)
{
    const struct types *types = writing->making->types;
    struct single *single = &writing->notes->single;
    single->types = 0;
    for (size_t i = 0; i < types->count; i++)
        ADD(single->type, single->types, single->type_room) = types->type[i].name;
}

/* What single locks lack: calls that aren't in the file, and locks that a thread held besides. */
static void note_lost(struct verifier_lines *writing)
{
    unsigned long held = 0;
    struct single *single = &writing->notes->single;
    single->lost = 0;
    stream_count(writing->making->stream, "log", &single->lost);
    stream_count(writing->making->stream, "held", &held);
    single->lost += held;
}

/* The field as a number of a place; 0 is a place of which nothing is known. */
static uint32_t place_in(const struct line *line, unsigned field)
{
    uint32_t place;
    return field_number(line, field, PLACE_MOST - 1, &place) ? place : 0;
}

static uint32_t frames_number(struct verifier_lines *writing, uint32_t place, uint32_t stack)
{
    const uint32_t key[] = {place, stack};
    struct notes *notes = writing->notes;
    size_t *number = map_add(&writing->framed, key, sizeof key);
    if (*number == 0) {
        frames_add(notes, writing->making->sites, place, stack, writing->making->frames);
        *number = notes->framed;
    }
    return (uint32_t)*number;
}

/* The line of the place, as a trace has it, and no more. */
static struct spot bare_spot(struct verifier_lines *writing, uint32_t place)
{
    char *site = place_in_trace(site_of(writing->making->sites, place));
    struct spot spot = {.site = texts_copy(writing->notes->texts, site, strlen(site))};
    free(site);
    return spot;
}

/* The number under which the notes have the place's line, its frames and its thread. */
static size_t spot_number(struct verifier_lines *writing, uint32_t place, uint32_t stack, uint32_t thread)
{
    const uint32_t key[] = {place, writing->has_callers ? stack : 0, writing->has_callers ? thread : 0};
    struct notes *notes = writing->notes;
    size_t *number = map_add(&writing->spots, key, sizeof key);
    if (*number != 0)
        return *number;
    struct spot spot = {.thread = thread, .at = writing->now};
    if (writing->has_callers) {
        spot.site = site_of(writing->making->sites, place);
        spot.frames = frames_number(writing, place, stack);
    } else {
        spot = bare_spot(writing, place);
    }
    ADD(notes->spot, notes->spots, notes->spot_room) = spot;
    return *number = notes->spots;
}

/* The place of a call, which is the field of that number: it is put, and answered, as a spot. A stack may follow. */
static size_t put_place(struct verifier_lines *writing, const struct line *line, unsigned field)
{
    uint32_t seat, stack = 0, place = place_in(line, field);
    char digits[24], *at = digits + sizeof digits;
    if (line->count > field + 1 && !field_number(line, line->count - 1, STACK_MOST - 1, &stack))
        writing->is_odd = true;
    if (!field_number(line, 1, SEAT_MOST - 1, &seat))
        seat = 0;
    size_t spot = spot_number(writing, place, stack, writing->sitter[seat]), number = spot;
    *--at = '\n';
    do
        *--at = (char)('0' + number % 10);
    while (number /= 10);
    fwrite_unlocked(at, 1, (size_t)(digits + sizeof digits - at), writing->to);
    return spot;
}

/* A call's line with its place, whose number is the answer; 0 where it has none. */
static size_t put_placed(struct verifier_lines *writing, const struct line *line, unsigned field)
{
    if (field >= line->count) {
        put_line(writing, line);
        return 0;
    }
    fwrite_unlocked(line->at, 1, (size_t)(line->field[field].at - line->at), writing->to);
    return put_place(writing, line, field);
}

/* Whether pairs of locks are noted, and the line is a call of a seat for a lock. */
static bool pairs_are_read(const struct verifier_lines *writing, const struct line *line, uint32_t *seat, uint32_t *lock)
{
    return writing->making->has_pairs && field_number(line, 1, SEAT_MOST - 1, seat)
        && field_number(line, 2, LOCK_MOST, lock);
}

/* What was told of the seat's wait is of one that is over. */
static void end_wait(struct verifier_lines *writing, const struct line *line)
{
    uint32_t seat;
    if (!field_number(line, 1, SEAT_MOST - 1, &seat) || !writing->owner[seat])
        return;
    writing->notes->event[writing->owner[seat] - 1].is_over = true;
    writing->owner[seat] = 0;
}

static void put_check(struct verifier_lines *writing, const struct line *line)
{
    uint32_t seat, lock;
    end_wait(writing, line);
    size_t spot = put_placed(writing, line, 5);
    if (pairs_are_read(writing, line, &seat, &lock))
        pairs_ask(&writing->pairs, &writing->notes->pairs, seat, lock, spot);
}

static void put_try(struct verifier_lines *writing, const struct line *line)
{
    uint32_t seat, lock;
    size_t spot = put_placed(writing, line, 4);
    if (pairs_are_read(writing, line, &seat, &lock))
        pairs_try(&writing->pairs, seat, lock, spot);
}

static void put_lock(struct verifier_lines *writing, const struct line *line)
{
    uint32_t seat, lock;
    put_line(writing, line);
    if (pairs_are_read(writing, line, &seat, &lock))
        pairs_get(&writing->pairs, seat, lock);
}

static void put_unlock(struct verifier_lines *writing, const struct line *line)
{
    uint32_t seat, lock;
    put_line(writing, line);
    if (pairs_are_read(writing, line, &seat, &lock))
        pairs_release(&writing->pairs, seat, lock);
}

static void put_give_up(struct verifier_lines *writing, const struct line *line)
{
    uint32_t seat, lock;
    put_line(writing, line);
    if (pairs_are_read(writing, line, &seat, &lock))
        pairs_give_up(&writing->pairs, seat);
}

/* The lock of that number has the names that it and its type have by now. */
static void name_lock(struct verifier_lines *writing, size_t number)
{
    const struct making *making = writing->making;
    struct texts *texts = writing->notes->texts;
    struct lock_name *lock = &writing->notes->lock[number];
    const struct made_lock *made = &writing->made[number];
    const char *name = made_lock_name(made, making->declared, making->types);
    const char *type = made_type_name(made, making->types);
    bool is_type = made->variable.object && strcmp(name, type) == 0;
    lock->name = texts_copy(texts, name, strlen(name));
    lock->type = texts_copy(texts, type, strlen(type));
    lock->variable = code_place_in(making->sites, is_type ? made->variable.object : 0, made->variable.offset);
}

static void keep_lock(struct verifier_lines *writing, const struct made_lock *made, const struct line *line)
{
    struct notes *notes = writing->notes;
    struct field class = line->count > 2 ? line->field[2] : (struct field){"", 0};
    ADD(writing->made, writing->mades, writing->made_room) = *made;
    ADD(notes->lock, notes->locks, notes->lock_room) =
        (struct lock_name){.class = texts_copy(notes->texts, class.at, class.length)};
    name_lock(writing, notes->locks - 1);
}

void verifier_lines_rename(struct verifier_lines *writing)
{
    struct notes *notes = writing->notes;
    for (size_t i = 0; i < notes->locks; i++)
        name_lock(writing, i);
    for (size_t i = 0; i < notes->events; i++)
        if (notes->event[i].lock >= 1 && notes->event[i].lock <= notes->locks)
            notes->event[i].name = notes->lock[notes->event[i].lock - 1].name;
}

/* Types that are one have the number of the first. The variable, which may be long, is left out. */
static void put_made(struct verifier_lines *writing, const struct made_lock *made, const struct line *line)
{
    enum { FIELD_TYPE = 4, FIELDS = 6 };
    if (made->type == 0 || line->count < FIELDS) {
        put_line(writing, line);
        return;
    }
    fwrite_unlocked(line->at, 1, (size_t)(line->field[FIELD_TYPE].at - line->at), writing->to);
    fprintf(writing->to, "%" PRIu32 " %.*s\n", made->type, (int)line->field[FIELD_TYPE + 1].length,
        line->field[FIELD_TYPE + 1].at);
}

static void put_init(struct verifier_lines *writing, const struct line *line)
{
    enum { FIELD_FLAGS = 3 };
    struct made_lock made;
    if (!made_lock_read(&made, line, writing->making->declared, writing->making->types, &writing->counts))
        writing->is_odd = true;
    keep_lock(writing, &made, line);
    if (line->count > FIELD_FLAGS && memchr(line->field[FIELD_FLAGS].at, *INIT_SHARED, line->field[FIELD_FLAGS].length))
        writing->notes->has_shared = true;
    /* What the type is called may change, and the verifier knows it by its number alone. */
    if (made.is_types_first)
        fprintf(writing->to, "name %" PRIu32 " \"%" PRIu32 "\"\n", made.type, made.type);
    put_made(writing, &made, line);
}

/* A place for what is noted beside calls. */
static struct event *new_event(struct verifier_lines *writing, enum event_kind kind, const struct line *line)
{
    struct notes *notes = writing->notes;
    struct event *event = &ADD(notes->event, notes->events, notes->event_room);
    uint32_t seat = 0;
    if (kind != EVENT_HOLDER && kind != EVENT_ANSWER && !field_number(line, 1, SEAT_MOST - 1, &seat))
        writing->is_odd = true;
    *event = (struct event){.kind = kind, .seat = seat};
    return event;
}

/* The lock whose number is in that field, with its name. */
static void note_lock(struct verifier_lines *writing, struct event *event, const struct line *line, unsigned field)
{
    uint32_t number;
    if (!field_number(line, field, LOCK_MOST, &number)) {
        writing->is_odd = true;
        return;
    }
    event->lock = number;
    if (number >= 1 && number <= writing->notes->locks)
        event->name = writing->notes->lock[number - 1].name;
}

/* `again SEAT LOCK PLACE`, or `foreign ..`. */
static void note_misuse(struct verifier_lines *writing, const struct line *line)
{
    enum event_kind kind = field_is(line, 0, WORD_AGAIN) ? EVENT_AGAIN : EVENT_FOREIGN;
    struct event *event = new_event(writing, kind, line);
    note_lock(writing, event, line, 2);
    event->site = site_of(writing->making->sites, place_in(line, 3));
}

/* The last wait of that seat is over. */
static void note_went(struct verifier_lines *writing, const struct line *line)
{
    struct notes *notes = writing->notes;
    uint32_t seat;
    if (!field_number(line, 1, SEAT_MOST - 1, &seat))
        return;
    for (size_t i = notes->events; i > 0; i--) {
        struct event *event = &notes->event[i - 1];
        if (event->kind == EVENT_AGAIN && event->seat == seat) {
            event->is_over = true;
            return;
        }
    }
}

/* `error WORD SEAT LOCK PLACE`. */
static void note_error(struct verifier_lines *writing, const struct line *line)
{
    struct notes *notes = writing->notes;
    struct event *event = &ADD(notes->event, notes->events, notes->event_room);
    *event = (struct event){.kind = EVENT_ERROR, .what = ""};
    if (line->count > 1)
        event->what = texts_copy(notes->texts, line->field[1].at, line->field[1].length);
    note_lock(writing, event, line, 3);
    event->site = site_of(writing->making->sites, place_in(line, 4));
}

/* What is told of single locks stays until a grade is asked for, which stands on it. */
static void note_single(struct verifier_lines *writing, const struct line *line)
{
    struct text *told = &writing->notes->single.told;
    text_add(told, line->field[0].at, (size_t)(line->end - line->field[0].at));
    text_add(told, "\n", 1);
}

static void note_life(struct verifier_lines *writing, const struct line *line)
{
    struct single *single = &writing->notes->single;
    size_t before = single->told.length;
    note_single(writing, line);
    text_add(&single->lives, single->told.bytes + before, single->told.length - before);
}

/* What stands before the type's number, and that of the first of those that are one with it, which is the answer. */
static uint32_t note_type(struct verifier_lines *writing, const struct line *line, unsigned number, const char **at)
{
    const struct types *types = writing->making->types;
    struct text *told = &writing->notes->single.told;
    char digits[16];
    uint32_t type;
    if (!field_number(line, number, TYPE_MOST - 1, &type) || type >= types->count)
        return 0;
    const struct field *field = &line->field[number];
    type = types->type[type].first;
    text_add(told, *at, (size_t)(field->at - *at));
    text_add(told, digits, (size_t)sprintf(digits, "%" PRIu32, type));
    *at = field->at + field->length;
    return type;
}

static void note_pair(struct verifier_lines *writing, const struct line *line)
{
    struct single *single = &writing->notes->single;
    const char *at = line->field[0].at;
    uint32_t held = note_type(writing, line, PAIR_HELD + PAIR_TYPE, &at);
    uint32_t asked = note_type(writing, line, PAIR_ASKED + PAIR_TYPE, &at);
    text_add(&single->told, at, (size_t)(line->end - at));
    text_add(&single->told, "\n", 1);
    single_reads_pair(single, line, held, asked);
}

static void note_errand(struct verifier_lines *writing, const struct line *line)
{
    single_reads_errand(&writing->notes->single, line);
}

static void note_site(struct verifier_lines *writing, uint32_t place)
{
    struct single *single = &writing->notes->single;
    if (place > 0 && place < single->sites && !single->site[place])
        single->site[place] = site_of(writing->making->sites, place);
}

/* Where threads asked for single locks, and where they got what they had by then. */
static void note_sites(struct verifier_lines *writing)
{
    struct single *single = &writing->notes->single;
    size_t places = writing->making->declared->places;
    if (places > single->sites) {
        single->site = grow_zeroed(single->site, single->sites, places, sizeof *single->site);
        single->sites = places;
    }
    for (; writing->tellings < single->tellings; writing->tellings++)
        note_site(writing, single->telling[writing->tellings].place);
    for (; writing->steps < single->steps; writing->steps++)
        note_site(writing, single->step[writing->steps].place);
}

static void note_answer(struct verifier_lines *writing, const struct line *line)
{
    new_event(writing, EVENT_ANSWER, line);
}

static void note_holder(struct verifier_lines *writing, const struct line *line)
{
    uint32_t thread = 0;
    struct event *event = new_event(writing, EVENT_HOLDER, line);
    note_lock(writing, event, line, 1);
    field_number(line, 2, INT32_MAX, &thread);
    event->thread = thread;
}

static void note_owner(struct verifier_lines *writing, const struct line *line)
{
    uint32_t thread = 0, seat;
    end_wait(writing, line);
    struct event *event = new_event(writing, EVENT_OWNER, line);
    note_lock(writing, event, line, 2);
    field_number(line, 3, INT32_MAX, &thread);
    event->thread = thread;
    if (field_number(line, 1, SEAT_MOST - 1, &seat))
        writing->owner[seat] = writing->notes->events;
}

static void note_time(struct verifier_lines *writing, const struct line *line)
{
    uint32_t now;
    if (field_number(line, 1, UINT32_MAX - 1, &now))
        writing->now = now;
}

/* The function that made the thread, and where. */
static void note_maker(struct verifier_lines *writing, struct event *event, uint32_t number)
{
    struct sites *sites = writing->making->sites;
    const struct declared *declared = sites->declared;
    const struct place *place = chosen_place(declared, place_of(declared, number));
    if (place->kind == PLACE_NONE)
        return;
    const struct code *code = code_of(declared, place);
    size_t frame = telling_frame(code, 0);
    const char *function = frame < code->count ? code->frame[frame].function : function_of(declared, place);
    event->maker = function ? word_of(sites, function) : NULL;
    event->site = site_of(sites, number);
}

static void note_thread(struct verifier_lines *writing, const struct line *line)
{
    uint32_t thread = 0, seat;
    struct event *event = new_event(writing, EVENT_THREAD, line);
    field_number(line, 4, INT32_MAX, &thread);
    event->thread = thread;
    if (field_number(line, 1, SEAT_MOST - 1, &seat))
        writing->sitter[seat] = thread;
    char *name = field_word(line, 2);
    if (name)
        event->name = word_of(writing->making->sites, name);
    free(name);
    note_maker(writing, event, place_in(line, 3));
}

/* Each word of which something is written or noted, those that are met most often first. */
static const struct {
    const char *word;
    void (*puts)(struct verifier_lines *writing, const struct line *line);
} words[] = {
    {WORD_CHECK, put_check},
    {WORD_LOCK, put_lock},
    {WORD_UNLOCK, put_unlock},
    {WORD_TRY, put_try},
    {WORD_GIVEUP, put_give_up},
    {WORD_INIT, put_init},
    {WORD_TIME, note_time},
    {WORD_THREAD, note_thread},
    {WORD_AGAIN, note_misuse},
    {WORD_WENT, note_went},
    {WORD_FOREIGN, note_misuse},
    {WORD_HOLDER, note_holder},
    {WORD_ANSWER, note_answer},
    {WORD_OWNER, note_owner},
    {WORD_ERROR, note_error},
    {WORD_PAIR, note_pair},
    {WORD_ERRAND, note_errand},
    {WORD_MANY, note_single},
    {WORD_LIFE, note_life},
    {WORD_JOINED, note_life},
};

static void write_line(struct verifier_lines *writing, const struct line *line)
{
    for (size_t i = 0; i < sizeof words / sizeof *words; i++)
        if (field_is(line, 0, words[i].word)) {
            words[i].puts(writing, line);
            return;
        }
}

struct verifier_lines *verifier_lines_new(const struct making *making, struct notes *notes)
{
    struct verifier_lines *writing = take(sizeof *writing);
    writing->making = making;
    writing->notes = notes;
    writing->has_callers = notes->has_callers = making->frames > 1 || making->is_learnt;
    return writing;
}

void verifier_lines_end(struct verifier_lines *writing)
{
    pairs_reading_end(&writing->pairs);
    lock_counts_end(&writing->counts);
    map_end(&writing->spots);
    map_end(&writing->framed);
    free(writing->made);
    free(writing);
}

bool verifier_lines_write(struct verifier_lines *writing, const char *at, const char *end, FILE *to)
{
    struct line line;
    writing->to = to;
    if (writing->lines == 0)
        fprintf(to, WORD_ASKED " %c " WORD_VERSION " %d\n", ASKED_NOT, FORMAT_VERSION);
    while (line_next(&line, &at, end)) {
        write_line(writing, &line);
        if (++writing->lines % LINES_BETWEEN == 0 && ferror(to))
            break;
        if (writing->making->progress)
            progress_resolved(writing->lines, writing->making->declared->lines);
    }
    note_lost(writing);
    note_whole(writing);
    note_sites(writing);
    return fflush(to) == 0 && !ferror(to) && !writing->is_odd;
}
