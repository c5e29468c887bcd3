#include "fields.h"

#include "allocation.h"
#include "debug_info.h"
#include "declarations.h"
#include "source_lines.h"
#include "source_text.h"

#include <stdlib.h>
#include <string.h>

/* So far above the place a structure's bracket is looked for, and so deep in others. */
enum { LINES_ABOVE = 200, DEPTH_MOST = 64, NAMESPACES_DEEP = 24 };

/* What stands before the place in its source, and its open brackets there. */
struct before {
    char *text;
    size_t open[DEPTH_MOST], depth;
};

/* After a comment, a string or a character that begins there; `at` where none does. A lifetime, `'a`, is none. */
static size_t after_words(const char *text, size_t at)
{
    size_t length = strlen(text);
    if (text[at] == '/' && text[at + 1] == '/')
        return at + strcspn(text + at, "\n");
    if (text[at] == '\'' && text[at + 1] && (text[at + 1] == '\\' || text[at + 2] == '\''))
        return at + 2 + strcspn(text + at + 2, "'") + (at + 2 < length);
    if (text[at] != '"')
        return at;
    for (at++; at < length && text[at] != '"'; at++)
        at += text[at] == '\\' && at + 1 < length;
    return at < length ? at + 1 : at;
}

static void read_brackets(struct before *before)
{
    for (size_t at = 0; before->text[at];) {
        size_t after = after_words(before->text, at);
        if (after > at) {
            at = after;
            continue;
        }
        if (strchr("{([", before->text[at]) && before->depth < DEPTH_MOST)
            before->open[before->depth++] = at;
        else if (strchr("})]", before->text[at]) && before->depth > 0)
            before->depth--;
        at++;
    }
}

/* False where the source isn't there, or has fewer lines. */
static bool before_begin(struct before *before, const struct declared *declared, const char *site, long line,
    size_t column)
{
    long first = line > LINES_ABOVE ? line - LINES_ABOVE : 1;
    char *from = say_text("%.*s:%ld", (int)(strrchr(site, ':') - site), site, first);
    const char *text = source_lines_from(symbols_lines(declared->symbols), from), *at = text;
    free(from);
    for (; at && first < line; first++) {
        at = strchr(at, '\n');
        at = at ? at + 1 : NULL;
    }
    *before = (struct before){0};
    if (!at || column == 0 || strcspn(at, "\n") < column - 1)
        return false;
    before->text = copy_bytes(text, (size_t)(at - text) + column - 1);
    read_brackets(before);
    return true;
}

static size_t without_blanks(const char *text, size_t end)
{
    while (end > 0 && strchr(" \t\n", text[end - 1]))
        end--;
    return end;
}

/* The word that ends there: a text of one's own; NULL for none. */
static char *word_that_ends(const char *text, size_t end)
{
    size_t from = end;
    while (from > 0 && is_word_byte(text[from - 1]))
        from--;
    return from < end && begins_word(text[from]) ? copy_bytes(text + from, end - from) : NULL;
}

/* The head of the block whose bracket stands there: what follows the last statement, or block. */
static char *head_of(const char *text, size_t bracket)
{
    size_t from = bracket;
    while (from > 0 && !strchr(";{}", text[from - 1]))
        from--;
    return copy_bytes(text + from, without_blanks(text, bracket) - from);
}

/* The type that `impl` is of: the word before its parameters. */
static char *implemented(char *head)
{
    char *at = strstr(head, "impl"), *of = at ? strstr(at, " for ") : NULL;
    if (!at || (at > head && is_word_byte(at[-1])) || is_word_byte(at[4]))
        return NULL;
    at = of ? of + 5 : at + 4;
    for (unsigned open = *at == '<'; open > 0 && *++at;)
        open = open + (*at == '<') - (*at == '>');
    at += strspn(at, "> ");
    return word_that_ends(at, strcspn(at, "< \n"));
}

/* The structure's name before the open bracket of that number. */
static char *structure_of(const struct before *before, size_t bracket)
{
    char *word = word_that_ends(before->text, without_blanks(before->text, before->open[bracket]));
    for (size_t outer = bracket; word && strcmp(word, "Self") == 0 && outer > 0; outer--) {
        char *head = head_of(before->text, before->open[outer - 1]), *type = implemented(head);
        free(head);
        if (!type)
            continue;
        free(word);
        word = type;
    }
    return word;
}

/* `STRUCTURE { .. FIELD: `, with calls like `Arc::new(` after it. Both are texts of one's own. */
static bool read_field(struct before *before, char **structure, char **field)
{
    size_t end = strlen(before->text), depth = before->depth;
    for (; depth > 0 && before->text[before->open[depth - 1]] == '('; depth--) {
        end = before->open[depth - 1];
        while (end > 0 && (is_word_byte(before->text[end - 1]) || strchr(":<>", before->text[end - 1])))
            end--;
    }
    end = without_blanks(before->text, end);
    if (depth == 0 || before->text[before->open[depth - 1]] != '{' || end < 2 || before->text[end - 1] != ':'
        || before->text[end - 2] == ':')
        return false;
    *field = word_that_ends(before->text, without_blanks(before->text, end - 1));
    *structure = *field ? structure_of(before, depth - 1) : NULL;
    if (!*structure)
        free(*field);
    return *structure != NULL;
}

/* What debug information has to have: the structure with that field, whose type has the lock's in it. */
struct wanted {
    const char *structure, *field;
    char *lock; /* `Mutex<` */
};

static bool has_name(const char *name, const char *wanted)
{
    size_t length = strlen(wanted);
    return name && strncmp(name, wanted, length) == 0 && (name[length] == '\0' || name[length] == '<');
}

static bool has_field(const struct entry *structure, const struct wanted *wanted)
{
    struct entry at, type;
    for (bool more = entry_first(structure, &at); more; more = entry_next(&at, &at)) {
        const char *name = entry_kind(&at) == ENTRY_MEMBER ? entry_name(&at) : NULL;
        if (name && strcmp(name, wanted->field) == 0 && entry_type(&at, &type)) {
            const char *of = entry_name(&type);
            return of && strstr(of, wanted->lock);
        }
    }
    return false;
}

static bool is_wanted(const struct entry *entry, const void *context)
{
    const struct wanted *wanted = context;
    return entry_kind(entry) == ENTRY_STRUCTURE && has_name(entry_name(entry), wanted->structure)
        && has_field(entry, wanted);
}

static bool looks_in(const struct entry *unit, const void *context)
{
    struct entry found;
    return entry_find(unit, is_wanted, context, ENTRY_NAMESPACE, NAMESPACES_DEEP, &found);
}

/* The program's objects: no library that has a version. */
static bool is_there(const struct declared *declared, const struct wanted *wanted)
{
    for (uint32_t number = 1; number < declared->objects; number++) {
        const struct object *object = object_of(declared, number);
        bool is_library = object->path && strstr(object->path, ".so.");
        struct debug_info *info = object->binary && !is_library ? binary_debug(object->binary) : NULL;
        if (info && debug_info_any_unit(info, looks_in, wanted))
            return true;
    }
    return false;
}

char *field_of_label(const struct declared *declared, const struct type *type)
{
    size_t kind = type->label ? strcspn(type->label, "<") : 0;
    const struct place *place = type->count > 0 ? place_of(declared, type->place[0]) : NULL;
    const char *site = place && place->kind == PLACE_SITE ? place->site->frame[0].site : NULL;
    const char *colon = site ? strrchr(site, ':') : NULL;
    struct before before;
    char *structure, *field, *name = NULL;
    if (type->column == 0 || !colon || !type->label || !type->label[kind])
        return NULL;
    bool is_read = before_begin(&before, declared, site, atol(colon + 1), type->column);
    if (is_read && read_field(&before, &structure, &field)) {
        struct wanted wanted = {structure, field, say_text("%.*s<", (int)kind, type->label)};
        if (is_there(declared, &wanted))
            name = say_text("%s::%s", structure, field);
        free(wanted.lock);
        free(structure);
        free(field);
    }
    free(is_read ? before.text : NULL);
    return name;
}
