#include "source_lines.h"

#include "allocation.h"
#include "files.h"
#include "map.h"
#include "site_parts.h"
#include "texts.h"

#include <stdlib.h>
#include <string.h>
#include <unistd.h>

/* A longer file is no source that somebody reads; and a statement of more lines isn't read to its end. */
enum { FILE_MOST = 64 << 20, LINES_MOST = 6 };

/* A file as a whole: many of its lines may be asked for. */
struct source {
    char *bytes; /* NULL where it can't be read */
    size_t length;
    time_t changed;
};

struct source_lines {
    struct map by_file; /* numbers in the list, from 1 on */
    struct source *source;
    size_t sources, source_room;
    struct map by_site; /* statements, in the texts */
    struct texts *texts;
};

struct source_lines *source_lines_new(void)
{
    struct source_lines *lines = take(sizeof *lines);
    lines->texts = texts_new();
    return lines;
}

void source_lines_end(struct source_lines *lines)
{
    for (size_t i = 0; i < lines->sources; i++)
        free(lines->source[i].bytes);
    free(lines->source);
    map_end(&lines->by_file);
    map_end(&lines->by_site);
    texts_end(lines->texts);
    free(lines);
}

static struct source read_source(const char *path)
{
    struct source source = {0};
    struct stat status;
    int file = file_open_regular(path, &status);
    if (file < 0)
        return source;
    if (status.st_size <= FILE_MOST) {
        source.bytes = take((size_t)status.st_size + 1);
        source.length = file_read(file, source.bytes, (size_t)status.st_size);
        source.changed = status.st_mtime;
    }
    close(file);
    return source;
}

static const struct source *source_at(struct source_lines *lines, const struct site_parts *parts)
{
    size_t *number = map_add(&lines->by_file, parts->file, parts->length);
    if (*number == 0) {
        char *path = copy_bytes(parts->file, parts->length);
        struct source source = read_source(path);
        ADD(lines->source, lines->sources, lines->source_room) = source;
        *number = lines->sources;
        free(path);
    }
    return &lines->source[*number - 1];
}

/* Whether the statement that begins there has come to its end: its brackets are closed, and it isn't cut before them. */
static bool is_whole(const char *text, size_t length)
{
    long open = 0;
    bool has_bracket = memchr(text, '(', length) || memchr(text, '{', length);
    for (size_t i = 0; i < length; i++)
        open += (text[i] == '(' || text[i] == '[') - (text[i] == ')' || text[i] == ']');
    return (has_bracket && open <= 0) || memchr(text, ';', length);
}

/* Where the line begins; NULL where there are fewer. */
static const char *line_in(const struct source *source, long line)
{
    const char *at = source->bytes, *end = at + source->length;
    for (long number = 1; number < line; number++) {
        const char *newline = memchr(at, '\n', (size_t)(end - at));
        if (!newline)
            return NULL;
        at = newline + 1;
    }
    return at;
}

static const char *statement_in(struct texts *texts, const struct source *source, long line)
{
    const char *at = line_in(source, line), *end = source->bytes + source->length;
    size_t length = 0;
    for (unsigned lines = 0; at && lines < LINES_MOST && at + length < end; lines++) {
        const char *newline = memchr(at + length, '\n', (size_t)(end - at) - length);
        length = newline ? (size_t)(newline + 1 - at) : (size_t)(end - at);
        if (is_whole(at, length))
            break;
    }
    return length > 0 ? texts_copy(texts, at, length) : NULL;
}

static const struct statement *read_statement(struct source_lines *lines, const char *site)
{
    struct statement *statement = texts_room(lines->texts, sizeof *statement);
    struct site_parts parts;
    if (!site_parts_read(&parts, site) || parts.line < 1)
        return statement;
    const struct source *source = source_at(lines, &parts);
    statement->changed = source->changed;
    if (source->bytes)
        statement->text = statement_in(lines->texts, source, parts.line);
    return statement;
}

const struct statement *source_lines_at(struct source_lines *lines, const char *site)
{
    const void **statement = map_thing(&lines->by_site, site, strlen(site));
    if (!*statement)
        *statement = read_statement(lines, site);
    return *statement;
}

const char *source_lines_from(struct source_lines *lines, const char *site)
{
    struct site_parts parts;
    if (!site_parts_read(&parts, site) || parts.line < 1)
        return NULL;
    const struct source *source = source_at(lines, &parts);
    return source->bytes ? line_in(source, parts.line) : NULL;
}
