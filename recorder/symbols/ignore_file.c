#include "ignore_file.h"

#include "allocation.h"
#include "type_names.h"

#include <stdio.h>
#include <stdlib.h>
#include <string.h>

/* The words of a file, each with the names that it stands for: its type, or the functions of several types' places. */
struct called {
    struct map words; /* a word's number in `list`, from 1 on */
    struct names {
        const char **name;
        size_t count, room;
    } * list;
    size_t lists, list_room;
};

/* A word in quotes at *at, which becomes what follows. NULL where there is none. */
static char *quoted(const char **at)
{
    const char *from = *at + 1, *end = **at == '"' ? strchr(from, '"') : NULL;
    if (!end || end == from)
        return NULL;
    *at = end + 1;
    return copy_bytes(from, (size_t)(end - from));
}

/* False where the line is none of such a file. What it names is taken all the same. */
static bool read_line(struct ignore_file *ignore, const char *line, unsigned long number)
{
    if (*line == '#' || line[strspn(line, " \t")] == '\0')
        return true;
    ADD(ignore->line, ignore->lines, ignore->line_room) = (struct ignore_line){copy(line), number};
    char *first = quoted(&line), *second = NULL;
    bool is_named = first != NULL;
    size_t blanks = is_named ? strspn(line, " \t") : 0;
    line += blanks;
    if (blanks > 0)
        second = quoted(&line);
    if (second) {
        ADD(ignore->pair, ignore->pairs, ignore->pair_room) = (struct ignore_pair){first, second, number};
    } else if (first) {
        *map_add_text(&ignore->single, first) = number;
        free(first);
    }
    line += strspn(line, " \t");
    return is_named && (*line == '\0' || *line == '#');
}

unsigned long ignore_file_read(struct ignore_file *ignore, const char *path)
{
    *ignore = (struct ignore_file){0};
    char *line = NULL;
    size_t room = 0;
    unsigned long bad = 0;
    FILE *file = fopen(path, "re");
    if (!file) {
        ignore->is_unread = true;
        return 0;
    }
    for (unsigned long number = 1; getline(&line, &room, file) >= 0; number++) {
        line[strcspn(line, "\n")] = '\0';
        if (!read_line(ignore, line, number) && bad == 0)
            bad = number;
    }
    ignore->is_unread = ferror(file) != 0;
    free(line);
    fclose(file);
    return bad;
}

void ignore_file_end(struct ignore_file *ignore)
{
    for (size_t i = 0; i < ignore->lines; i++)
        free(ignore->line[i].text);
    free(ignore->line);
    for (size_t i = 0; i < ignore->pairs; i++) {
        free(ignore->pair[i].first);
        free(ignore->pair[i].second);
    }
    free(ignore->pair);
    map_end(&ignore->single);
    *ignore = (struct ignore_file){0};
}

static void note_match(struct notes *notes, unsigned long line)
{
    for (size_t i = 0; i < notes->matches; i++)
        if (notes->matched[i] == line)
            return;
    ADD(notes->matched, notes->matches, notes->matched_room) = line;
}

/* The word stands for the name, too. */
static void call(struct called *called, const struct ignore_file *ignore, struct notes *notes, const char *word,
    const char *name)
{
    size_t *number = map_add_text(&called->words, word), line = map_find_text(&ignore->single, word);
    if (*number == 0) {
        ADD(called->list, called->lists, called->list_room) = (struct names){0};
        *number = called->lists;
    }
    struct names *names = &called->list[*number - 1];
    ADD(names->name, names->count, names->room) = name;
    if (line == 0)
        return;
    ignored_add_type(&notes->ignored, name, IGNORED_BY_USER);
    note_match(notes, line);
}

static const struct names *names_of(const struct called *called, const char *word)
{
    size_t number = map_find_text(&called->words, word);
    return number ? &called->list[number - 1] : NULL;
}

/* All pairs of types that the two words of a line stand for. */
static void ignore_pair(const struct called *called, const struct ignore_pair *pair, struct notes *notes)
{
    const struct names *first = names_of(called, pair->first), *second = names_of(called, pair->second);
    if (!first || !second)
        return;
    note_match(notes, pair->line);
    for (size_t i = 0; i < first->count; i++)
        for (size_t j = 0; j < second->count; j++)
            if (strcmp(first->name[i], second->name[j]) != 0)
                ignored_add_pair(&notes->ignored, first->name[i], second->name[j], IGNORED_BY_USER);
}

static void note_alias(struct notes *notes, const struct named_type *type)
{
    bool has_functions = type->functions && strcmp(type->functions, type->by_lines) != 0;
    ADD(notes->alias, notes->aliases, notes->alias_room) = (struct alias){
        .type = type->name,
        .by_lines = type->by_lines,
        .functions = has_functions ? type->functions : NULL,
        .source = type->source,
        .is_member = type->is_member,
        .lasting = type->lasting,
    };
}

/* The name without the numbers of calls that look alike: a text of one's own. */
static char *without_numbers(const char *name)
{
    char *plain = copy(name), *to = plain;
    for (const char *from = name; *from;) {
        size_t digits = *from == '#' ? strspn(from + 1, "0123456789") : 0;
        if (digits > 0 && from[1 + digits] == ')')
            from += 1 + digits;
        else
            *to++ = *from++;
    }
    *to = '\0';
    return plain;
}

/*
 * All that the user may call the type: its name, that by lines, those that last, and the functions of its places. Of types
 * that are one each has its own functions and lines, and all stand for the first of them.
 */
static void call_type(struct called *called, const struct ignore_file *ignore, struct notes *notes,
    const struct named_type *type, bool is_first)
{
    char *plain = is_first ? without_numbers(type->lasting.name) : copy(""), cut[TRACE_NAME_MOST + 1];
    const char *bare = is_first ? plain + (type->lasting.bare - type->lasting.name) : plain;
    const char *word[] = {type->alone, type->functions, type->name, type->by_lines, cut, type->lasting.name,
        type->lasting.bare, plain, bare};
    size_t words = is_first ? sizeof word / sizeof *word : 2;
    trace_name(cut, type->name);
    for (size_t i = 0; i < words; i++) {
        bool is_new = word[i] != NULL;
        for (size_t j = 0; is_new && j < i; j++)
            is_new = !word[j] || strcmp(word[j], word[i]) != 0;
        if (is_new)
            call(called, ignore, notes, word[i], type->name);
    }
    free(plain);
}

void ignore_file_note(struct notes *notes, const struct ignore_file *ignore, const struct types *types)
{
    struct called called = {0};
    ignored_types_end(&notes->ignored);
    notes->aliases = notes->matches = 0;
    for (uint32_t number = 1; number < types->count; number++) {
        const struct named_type *type = &types->type[number];
        bool is_first = type->first == number;
        call_type(&called, ignore, notes, type, is_first);
        if (is_first)
            note_alias(notes, type);
    }
    for (size_t i = 0; i < ignore->pairs; i++)
        ignore_pair(&called, &ignore->pair[i], notes);
    for (size_t i = 0; i < called.lists; i++)
        free(called.list[i].name);
    free(called.list);
    map_end(&called.words);
}
