#include "sources.h"

#include <stdio.h>
#include <stdlib.h>
#include <string.h>
#include <unistd.h>

#include "allocation.h"
#include "files.h"
#include "map.h"
#include "schedule.h"
#include "site_parts.h"

/* So many lines are told before and after a place. Beyond it a file is no source that somebody reads, and a line isn't told further. */
enum { AROUND = 3, FILE_MOST = 64 << 20, LINE_MOST = 400 };

struct source {
    char *file;
    long *line; /* those of places */
    size_t lines, room;
};

struct sources {
    const struct run_reports *gathered;
    char *folder; /* the directory's own name; NULL where it isn't there */
    struct map number;
    struct source *source;
    size_t count, room;
};

static struct source *source_of(struct sources *sources, const struct site_parts *parts)
{
    size_t *number = map_add(&sources->number, parts->file, parts->length);
    if (*number == 0) {
        ADD(sources->source, sources->count, sources->room) =
            (struct source){.file = copy_bytes(parts->file, parts->length)};
        *number = sources->count;
    }
    return &sources->source[*number - 1];
}

/* The file of the place; with its lines, where they are to be told. */
static void add(struct sources *sources, const char *site, bool with_lines)
{
    struct site_parts parts;
    if (!site_parts_read(&parts, site) || parts.line == 0)
        return;
    struct source *source = source_of(sources, &parts);
    if (with_lines)
        ADD(source->line, source->lines, source->room) = parts.line;
}

static void add_report(struct sources *sources, const struct run_report *entry)
{
    const struct report *report = entry->report;
    const struct schedule *schedule = entry->schedule;
    const struct confirmed *confirmed = entry->confirmed;
    for (size_t i = 0; i < report->lines; i++) {
        const struct frames *frames = report->line[i].frames;
        add(sources, report->line[i].site, true);
        for (size_t j = 0; frames && j < frames->count; j++)
            add(sources, frames->frame[j].site, false);
    }
    for (size_t i = 0; schedule && i < schedule->rows; i++)
        add(sources, schedule->row[i].site, true);
    for (size_t i = 0; confirmed && i < confirmed->hang.threads; i++) {
        add(sources, confirmed->hang.thread[i].took_at, false);
        add(sources, confirmed->hang.thread[i].wants_at, false);
    }
}

static char *path_of(const struct sources *sources, const char *file)
{
    const char *directory = sources->gathered->directory;
    return *file == '/' || !directory ? copy(file) : say_text("%s/%s", directory, file);
}

/* The file's own name, without steps up and links, where it is there: what is in the folder by the way from there. */
static char *own_name(const struct sources *sources, const char *file)
{
    char *path = path_of(sources, file), *real = realpath(path, NULL), *name;
    const char *folder = sources->folder;
    size_t length = folder ? strlen(folder) : 0;
    if (real && folder && strncmp(real, folder, length) == 0 && real[length] == '/')
        name = copy(real + length + 1);
    else
        name = copy(real ? real : file);
    free(path);
    free(real);
    return name;
}

static FILE *open_source(const struct sources *sources, const char *name, struct stat *found)
{
    char *path = path_of(sources, name);
    int file = file_open_regular(path, found);
    free(path);
    FILE *source = file >= 0 && found->st_size <= FILE_MOST ? fdopen(file, "r") : NULL;
    if (!source && file >= 0)
        close(file);
    return source;
}

/* Not in the middle of a character. */
static size_t shown_length(const char *text, size_t length)
{
    if (length <= LINE_MOST)
        return length;
    for (length = LINE_MOST; length > LINE_MOST - 4 && ((unsigned char)text[length] & 0xc0u) == 0x80u; length--)
        ;
    return length;
}

static void write_line(struct objects *to, long number, const char *text, size_t length)
{
    while (length > 0 && (text[length - 1] == '\n' || text[length - 1] == '\r'))
        length--;
    size_t shown = shown_length(text, length);
    char *line = say_text("%.*s%s", (int)shown, text, shown < length ? " \xe2\x80\xa6" : "");
    object_open(to, NULL, '{');
    object_number(to, "line", number);
    object_text(to, "text", line);
    object_close(to, '{');
    free(line);
}

static int by_number(const void *left, const void *right)
{
    long one = *(const long *)left, other = *(const long *)right;
    return one < other ? -1 : one > other;
}

/* The lines around the places, each once. */
static void write_lines(struct objects *to, struct source *source, FILE *from)
{
    char *text = NULL;
    size_t room = 0, next = 0;
    ssize_t length;
    if (source->lines > 0)
        qsort(source->line, source->lines, sizeof *source->line, by_number);
    for (long number = 1; next < source->lines && (length = getline(&text, &room, from)) >= 0; number++) {
        while (next < source->lines && source->line[next] + AROUND < number)
            next++;
        if (next < source->lines && source->line[next] - AROUND <= number)
            write_line(to, number, text, (size_t)length);
    }
    free(text);
}

static void write_source(struct objects *to, const struct sources *sources, struct source *source)
{
    struct stat found = {0};
    FILE *from = open_source(sources, source->file, &found);
    char *name = own_name(sources, source->file);
    time_t built = sources->gathered->built;
    object_open(to, NULL, '{');
    object_text(to, "file", source->file);
    object_text(to, "path", name);
    object_truth(to, "newer", from && built && found.st_mtime > built);
    object_open(to, "lines", '[');
    if (from)
        write_lines(to, source, from);
    object_close(to, '[');
    object_close(to, '{');
    free(name);
    if (from)
        fclose(from);
}

void sources_write(struct objects *to, const struct run_reports *gathered)
{
    struct sources sources = {.gathered = gathered,
        .folder = gathered->directory ? realpath(gathered->directory, NULL) : NULL};
    for (size_t i = 0; i < gathered->reports; i++)
        add_report(&sources, &gathered->report[i]);
    object_open(to, "sources", '[');
    for (size_t i = 0; i < sources.count; i++) {
        write_source(to, &sources, &sources.source[i]);
        free(sources.source[i].file);
        free(sources.source[i].line);
    }
    object_close(to, '[');
    map_end(&sources.number);
    free(sources.source);
    free(sources.folder);
}
