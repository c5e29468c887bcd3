#include "status_file.h"

#include <stdlib.h>
#include <string.h>
#include <unistd.h>

#include "allocation.h"
#include "files.h"
#include "format.h"
#include "source_names.h"

enum { BYTES_LEAST = 65536 };

/* What is written in the file is far apart, and zeroes are between: they are left out. NULL where it can't be read. */
static char *written(const char *path, size_t *size)
{
    struct stat found;
    int file = file_open_regular(path, &found);
    if (file < 0)
        return NULL;
    char *bytes = take((size_t)found.st_size + 1);
    size_t length = file_read(file, bytes, (size_t)found.st_size), kept = 0;
    close(file);
    for (size_t at = 0; at < length; at++)
        if (bytes[at])
            bytes[kept++] = bytes[at];
    bytes[kept] = '\0';
    *size = length;
    return bytes;
}

static void add_bare(struct status *status, long process, const char *name, bool lacks_memory)
{
    for (size_t i = 0; i < status->bares; i++)
        if (strcmp(status->bare[i].name, name) == 0 && status->bare[i].lacks_memory == lacks_memory) {
            status->bare[i].times++;
            status->bare[i].process = process;
            return;
        }
    ADD(status->bare, status->bares, status->bare_room) = (struct bare){copy(name), lacks_memory, 1, process};
}

/* The parts of a process's line, after its number: words and what they say, then its counts. */
static void read_parts(struct status *status, long process, char *parts)
{
    const char *name = "", *started = "", *loaded = NOT_LOADED;
    char *counts = strstr(parts, " " WORD_MISSED " "), *rest, *word, *value;
    if (counts)
        *counts++ = '\0';
    word = strtok_r(parts, " \t", &rest);
    for (; word && (value = strtok_r(NULL, " \t", &rest)) != NULL; word = strtok_r(NULL, " \t", &rest)) {
        if (strcmp(word, STATUS_NAME) == 0)
            name = value;
        else if (strcmp(word, STATUS_STARTED) == 0)
            started = value;
        else if (strcmp(word, STATUS_LOADED) == 0)
            loaded = value;
    }
    if (strcmp(loaded, LOADED) == 0)
        ADD(status->loaded, status->loads, status->loaded_room) = process;
    else
        add_bare(status, process, *started ? started : name, strcmp(loaded, LOADED_WITHOUT_MEMORY) == 0);
    if (counts)
        ADD(status->failed, status->failures, status->failed_room) = (struct failed){process, copy(name), copy(counts)};
}

/* Whether it is a process's: its letter, its number in so many digits, and a blank. */
static bool is_process(const char *line)
{
    return line[0] == STATUS_PROCESS && strspn(line + 1, "0123456789") == STATUS_DIGITS && line[1 + STATUS_DIGITS] == ' ';
}

/* The path that stands there as a word: a text of one's own. */
static char *path_in(const char *word)
{
    char *path = copy(word);
    undo_escapes(path);
    return path;
}

/* The number of the process whose line it is; 0 where it is no process's. */
static long read_line(struct status *status, char *line)
{
    static const char object[] = WORD_OBJECT " ", past[] = STATUS_PAST " ";
    if (strcmp(line, STATUS_FULL) == 0) {
        status->is_full = true;
    } else if (strcmp(line, STATUS_SEMAPHORES) == 0) {
        status->has_semaphores = true;
    } else if (strncmp(line, object, sizeof object - 1) == 0) {
        ADD(status->object, status->objects, status->object_room) = path_in(line + sizeof object - 1);
    } else if (strncmp(line, past, sizeof past - 1) == 0) {
        ADD(status->past, status->pasts, status->past_room) = path_in(line + sizeof past - 1);
    } else if (is_process(line)) {
        read_parts(status, strtol(line + 1, NULL, 10), line + 2 + STATUS_DIGITS);
        return strtol(line + 1, NULL, 10);
    }
    return 0;
}

void status_read(struct status *status, const char *path, long first, const char *program)
{
    size_t size = 0;
    char *rest, *bytes = written(path, &size);
    bool is_known = false;
    *status = (struct status){.is_short = size < BYTES_LEAST};
    for (char *line = bytes ? strtok_r(bytes, "\n", &rest) : NULL; line; line = strtok_r(NULL, "\n", &rest)) {
        long process = read_line(status, line);
        is_known = is_known || (process && process == first);
    }
    if (first && !is_known)
        add_bare(status, first, program, false);
    free(bytes);
}

void status_end(struct status *status)
{
    for (size_t i = 0; i < status->failures; i++) {
        free(status->failed[i].name);
        free(status->failed[i].counts);
    }
    for (size_t i = 0; i < status->bares; i++)
        free(status->bare[i].name);
    for (size_t i = 0; i < status->objects; i++)
        free(status->object[i]);
    for (size_t i = 0; i < status->pasts; i++)
        free(status->past[i]);
    free(status->past);
    free(status->failed);
    free(status->bare);
    free(status->loaded);
    free(status->object);
    *status = (struct status){0};
}
