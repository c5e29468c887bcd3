#include "colour.h"

#include <stdio.h>
#include <stdlib.h>
#include <string.h>
#include <unistd.h>

#define RED "\033[1;31m"
#define BOLD "\033[1m"
#define PLAIN "\033[0m"

bool colour_word(const char *word)
{
    return strcmp(word, "auto") == 0 || strcmp(word, "always") == 0 || strcmp(word, "never") == 0;
}

bool colour_is_wanted(const char *word)
{
    const char *against = getenv("NO_COLOR"), *terminal = getenv("TERM");
    if (word && strcmp(word, "auto") != 0)
        return strcmp(word, "always") == 0;
    return isatty(STDERR_FILENO) && !(against && *against) && terminal && strcmp(terminal, "dumb") != 0;
}

/* What a line is shown in; NULL where it is no heading. */
static const char *colour_of(const char *line, size_t length)
{
    static const struct {
        const char *begin, *colour;
    } headings[] = {
        {"lock order reversal:", RED},
        {"acquiring duplicate lock of same type:", RED},
        {"circle:", RED},
        {"witness exhausted", RED},
        {"established order:", BOLD},
        {"callers:", BOLD},
    };
    for (size_t i = 0; i < sizeof headings / sizeof *headings; i++) {
        size_t its = strlen(headings[i].begin);
        if (length >= its && memcmp(line, headings[i].begin, its) == 0)
            return headings[i].colour;
    }
    return NULL;
}

char *coloured(const char *text, size_t length, size_t *made)
{
    char *lines = NULL;
    FILE *to = open_memstream(&lines, made);
    const char *end = text + length;
    if (!to)
        return NULL;
    while (text < end) {
        const char *after = memchr(text, '\n', (size_t)(end - text));
        size_t line = (size_t)((after ? after : end) - text);
        const char *colour = colour_of(text, line);
        fputs(colour ? colour : "", to);
        fwrite(text, 1, line, to);
        fputs(colour ? PLAIN : "", to);
        fputs(after ? "\n" : "", to);
        text = after ? after + 1 : end;
    }
    return fclose(to) == 0 ? lines : NULL;
}
