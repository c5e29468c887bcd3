#include "settings_file.h"

#include <stdio.h>
#include <stdlib.h>
#include <string.h>

#include "allocation.h"
#include "format.h"
#include "source_names.h"

/* A line of the word and its value, which may have a newline of its own. */
static void put(FILE *file, const char *word, const char *value)
{
    fprintf(file, "%s ", word);
    for (; value && *value; value++) {
        if (*value == '\n' || *value == ESCAPE)
            fprintf(file, "%c%02x", ESCAPE, (unsigned)*value);
        else
            putc(*value, file);
    }
    putc('\n', file);
}

bool kept_write(const struct settings *settings, const char *work)
{
    char *path = say_text("%s/settings", work);
    FILE *file = fopen(path, "we");
    free(path);
    if (!file)
        return false;
    put(file, "ignore", settings->ignore);
    put(file, "right", settings->right);
    put(file, "skip", settings->skip);
    put(file, "directory", settings->directory);
    put(file, "program", settings->program);
    bool whole = !ferror(file);
    return fclose(file) == 0 && whole;
}

/* The value of the line, if the line is that word's; it is the caller's. */
static char *value_of(const char *line, const char *word)
{
    size_t length = strlen(word);
    if (strncmp(line, word, length) != 0 || line[length] != ' ')
        return NULL;
    char *value = copy_bytes(line + length + 1, strcspn(line + length + 1, "\n"));
    undo_escapes(value);
    return value;
}

/* Where the line is that word's, and its value is wanted, the setting becomes that. */
static void take_value(const char **setting, bool wanted, const char *line, const char *word)
{
    char *value = value_of(line, word);
    if (wanted && is_asked(value))
        *setting = value;
    else
        free(value);
}

void kept_read(struct settings *settings, const char *records)
{
    char *path = say_text("%s/../settings", records), *line = NULL;
    const char *ignore = NULL, *skip = NULL, *right = NULL;
    size_t room = 0;
    FILE *file = fopen(path, "re");
    free(path);
    if (!file)
        return;
    while (getline(&line, &room, file) >= 0) {
        take_value(&settings->directory, true, line, "directory");
        take_value(&settings->program, true, line, "program");
        take_value(&ignore, !is_asked(settings->ignore) && !ignore, line, "ignore");
        take_value(&skip, !is_asked(settings->skip) && !skip, line, "skip");
        take_value(&right, !right, line, "right");
    }
    free(line);
    fclose(file);
    if (skip)
        settings->skip = skip;
    /* The file was named from where the program was run. */
    if (right && !settings->right)
        settings->right =
            *right == '/' || strcmp(right, "-") == 0 ? copy(right) : say_text("%s/%s", settings->directory, right);
    if (ignore)
        settings->ignore = *ignore == '/' ? copy(ignore) : say_text("%s/%s", settings->directory, ignore);
    free((char *)ignore);
    free((char *)right);
}
