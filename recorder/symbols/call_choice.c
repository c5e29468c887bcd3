#include "call_choice.h"

#include "allocation.h"
#include "call_words.h"
#include "declarations.h"
#include "lock_names.h"
#include "map.h"
#include "source_names.h"
#include "source_text.h"
#include "steps.h"

#include <stdlib.h>
#include <string.h>

/* The lines of a function that look alike, as far as it was read. */
struct lines {
    char *file;
    const char *at; /* the next line; NULL where the function isn't known */
    long number;
    long *alike;
    size_t count, room;
};

struct alike {
    struct map by_look; /* numbers in the list, from 1 on */
    struct lines *lines;
    size_t count, room;
};

/* What the lines are to have; and by which step they are read. */
struct look {
    const struct declared *declared;
    const struct step *step;
    const char *function;                   /* that is called; NULL of a lock */
    const char *word;                       /* of the call, or of the lock; NULL where it has none */
    const struct lock_name_in_source *lock; /* NULL of a call */
    bool is_made;                           /* the step's line makes the lock */
};

struct alike *alike_new(void)
{
    return take(sizeof(struct alike));
}

void alike_end(struct alike *alike)
{
    for (size_t i = 0; i < alike->count; i++) {
        free(alike->lines[i].file);
        free(alike->lines[i].alike);
    }
    free(alike->lines);
    map_end(&alike->by_look);
    free(alike);
}

static bool are_equal(const char *one, const char *other)
{
    return one && other ? strcmp(one, other) == 0 : one == other;
}

/* Whether the line makes a lock. */
static bool makes(const char *text)
{
    struct span line = {text, text + strcspn(text, "\n")};
    return has_part(line, "init") || has_part(line, "made");
}

static bool is_call_alike(const struct look *look, const char *text)
{
    if (!has_call(text, look->function))
        return false;
    char *word = call_word(text, look->function);
    bool is_alike = are_equal(look->word, word);
    free(word);
    return is_alike;
}

static bool is_lock_alike(const struct look *look, const char *site, const char *text)
{
    struct step line = *look->step;
    line.site = site;
    const struct lock_name_in_source *other = lock_name_at(look->declared, &line);
    const char *word = look->lock->member ? other->member : other->expression;
    return are_equal(look->word, word) && makes(text) == look->is_made;
}

static bool is_alike(const struct look *look, const char *site)
{
    const char *text = source_lines_at(symbols_lines(look->declared->symbols), site)->text;
    return text && (look->lock ? is_lock_alike(look, site, text) : is_call_alike(look, text));
}

/* Reads on to that line. Only those that have the name are looked at. */
static void read_to(const struct look *look, struct lines *lines, const char *name, long end)
{
    for (; lines->at && *lines->at && lines->number < end; lines->number++) {
        size_t length = strcspn(lines->at, "\n");
        bool has_name = *name && memmem(lines->at, length, name, strlen(name));
        char *site = has_name ? say_text("%s:%ld", lines->file, lines->number) : NULL;
        if (site && is_alike(look, site))
            ADD(lines->alike, lines->count, lines->room) = lines->number;
        free(site);
        lines->at += length + (lines->at[length] != '\0');
    }
}

/* The lines of the function that begins there: they are read once for what looks so. */
static struct lines *lines_of(const struct look *look, const char *file, size_t length, long first)
{
    struct alike *alike = lock_names_alike(symbols_lock_names(look->declared->symbols));
    /* What a line's words mean may be another thing for each place in the function. */
    char *own =
        look->lock ? say_text("%s %llx", look->step->site, (unsigned long long)look->step->place->offset) : copy("");
    char *site = say_text("%.*s:%ld", (int)length, file, first);
    char *key =
        say_text("%s\n%s\n%s\n%s", site, look->function ? look->function : "", look->word ? look->word : "\n", own);
    size_t *number = map_add_text(&alike->by_look, key);
    if (*number == 0) {
        const char *at = source_lines_from(symbols_lines(look->declared->symbols), site);
        ADD(alike->lines, alike->count, alike->room) =
            (struct lines){.file = copy_bytes(file, length), .at = at, .number = first};
        *number = alike->count;
    }
    free(own);
    free(site);
    free(key);
    return &alike->lines[*number - 1];
}

/* How many lines that have the name look so before the step's own one. */
static size_t count_before(const struct look *look, const char *name)
{
    const char *site = look->step->site, *colon = site ? strrchr(site, ':') : NULL;
    if (!colon || !has_text_at(look->declared, look->step))
        return 0;
    long own = strtol(colon + 1, NULL, 10), below = function_at_step(look->declared, look->step)->lines;
    size_t count = 0;
    if (below <= 0)
        return 0;
    struct lines *lines = lines_of(look, site, (size_t)(colon - site), own - below);
    read_to(look, lines, name, own);
    while (count < lines->count && lines->alike[count] < own)
        count++;
    return count;
}

/* The last part of a function's name, without what a template was made for. */
static char *last_of_function(const char *function)
{
    const char *last = last_part(function);
    return copy_bytes(last, strcspn(last, "<( "));
}

size_t calls_alike_before(const struct declared *declared, const struct step *step, const char *function, const char *word)
{
    struct look look = {.declared = declared, .step = step, .function = function, .word = word};
    char *name = last_of_function(function);
    size_t count = count_before(&look, name);
    free(name);
    return count;
}

/* The last name of a path: of `cache::lock (cache.c)` and of `cache->lock[]` it is `lock`. */
static char *last_of_path(const char *path)
{
    const char *end = path + strcspn(path, " "), *from;
    while (end > path && end[-1] == ']') {
        while (end > path && *--end != '[')
            ;
    }
    for (from = end; from > path && is_word_byte(from[-1]);)
        from--;
    return copy_bytes(from, (size_t)(end - from));
}

size_t locks_alike_before(const struct declared *declared, const struct step *step, const struct lock_name_in_source *lock)
{
    const char *word = lock->member ? lock->member : lock->expression;
    const char *text = step->site ? source_lines_at(symbols_lines(declared->symbols), step->site)->text : NULL;
    struct look look = {.declared = declared, .step = step, .word = word, .lock = lock, .is_made = text && makes(text)};
    char *name = last_of_path(word);
    size_t count = count_before(&look, name);
    free(name);
    return count;
}
