/*
 * The file that WITNESS_ORDERS names. Its lines are those of a trace's prelude and of the file of `record --ignore`:
 *
 *   order CLASS "TYPE" CLASS "TYPE" ..   a static list: locks of these types are taken in that sequence
 *   bless "TYPE" "TYPE"                  either order of the two is all right; without the first word, too
 *   "TYPE"                               two locks of the type are all right
 *
 * CLASS is mtx or rw. After a line may stand a comment, from # on. A line that isn't one of these is told and passed over.
 */
#include "judge_verifier.h"
#include "report_action.h"

#include <fcntl.h>
#include <string.h>
#include <unistd.h>

enum { FILE_MOST = 1 << 20, NAME_MOST = 63 };

static const struct lists nothing;
static struct lists *named;

static char *passed_blank(char *at)
{
    return at + strspn(at, " \t\r");
}

/* The name in quotes there, and what follows it; false where there is none. */
static bool name_read(char **at, const char **name, size_t *length)
{
    char *from = passed_blank(*at), *end = *from == '"' ? strchr(from + 1, '"') : NULL;
    if (!end || end == from + 1 || end - from - 1 > NAME_MOST)
        return false;
    *name = from + 1;
    *length = (size_t)(end - from - 1);
    *at = end + 1;
    return true;
}

static bool word_read(char **at, const char *word)
{
    char *from = passed_blank(*at);
    size_t length = strlen(word);
    if (strncmp(from, word, length) != 0 || !strchr(" \t", from[length]) || from[length] == '\0')
        return false;
    *at = from + length;
    return true;
}

static bool line_ends(char *at)
{
    at = passed_blank(at);
    return *at == '\0' || *at == '#';
}

/* A static list, after its first word. */
static bool list_read(char *at)
{
    struct wit_list *list = &named->lists[named->lists_count];
    struct wit_listed *types = &named->types[named->types_count];
    size_t count = 0, most = sizeof named->types / sizeof *types - named->types_count;
    while (!line_ends(at)) {
        bool is_rw = word_read(&at, "rw");
        if (count == most || (!is_rw && !word_read(&at, "mtx"))
            || !name_read(&at, &types[count].name, &types[count].length))
            return false;
        types[count++].class_number = is_rw ? WIT_RW : WIT_SLEEP_MUTEX;
    }
    if (count < 2 || named->lists_count == sizeof named->lists / sizeof *list)
        return false;
    *list = (struct wit_list){types, count};
    named->lists_count++;
    named->types_count += count;
    return true;
}

static bool names_read(char *at, bool needs_two)
{
    struct wit_pair pair = {0};
    if (!name_read(&at, &pair.first, &pair.first_length))
        return false;
    bool has_two = name_read(&at, &pair.second, &pair.second_length);
    size_t *count = has_two ? &named->pairs_count : &named->doubled_count;
    if (!line_ends(at) || (needs_two && !has_two) || *count == sizeof named->pairs / sizeof pair)
        return false;
    (has_two ? named->pairs : named->doubled)[(*count)++] = pair;
    return true;
}

static bool line_read(char *line)
{
    if (line_ends(line))
        return true;
    if (word_read(&line, "order"))
        return list_read(line);
    return names_read(line, word_read(&line, "bless"));
}

/* The whole file, and a zero; NULL where it can't be read, or is too long. */
static char *file_read(const char *path)
{
    char *text = table(FILE_MOST + 1);
    size_t length = 0;
    ssize_t got = -1;
    int file = text ? open(path, O_RDONLY | O_CLOEXEC) : -1;
    if (file < 0)
        return NULL;
    while (length < FILE_MOST && (got = read(file, text + length, FILE_MOST - length)) > 0)
        length += (size_t)got;
    close(file);
    return got == 0 ? text : NULL;
}

void lists_begin(void)
{
    const char *path = secure_getenv("WITNESS_ORDERS");
    unsigned number = 0;
    if (!path || !*path)
        return;
    char *line = file_read(path);
    if (!line || !(named = table(sizeof *named))) {
        tell_line("%s can't be read: WITNESS_ORDERS names nothing", path);
        return;
    }
    while (line) {
        char *end = strchr(line, '\n');
        if (end)
            *end = '\0';
        number++;
        if (!line_read(line))
            tell_line("%s: line %u isn't order CLASS \"TYPE\" CLASS \"TYPE\" .., bless \"TYPE\" \"TYPE\", \"TYPE\" or "
                      "\"TYPE\" \"TYPE\": it is passed over",
                path, number);
        line = end ? end + 1 : NULL;
    }
}

const struct lists *lists_named(void)
{
    return named ? named : &nothing;
}

bool is_doubled(const char *type)
{
    const struct lists *lists = lists_named();
    size_t length = strlen(type);
    for (size_t i = 0; i < lists->doubled_count; i++)
        if (lists->doubled[i].first_length == length && memcmp(lists->doubled[i].first, type, length) == 0)
            return true;
    return false;
}
