#include "option_words.h"

#include <stdio.h>
#include <stdlib.h>
#include <string.h>
#include <sys/stat.h>

#include "allocation.h"
#include "usage.h"

int number_up_to(const char *word, int most)
{
    int number = 0;
    for (const char *at = word; *at; at++) {
        if (*at < '0' || *at > '9' || at - word > 3)
            return -1;
        number = number * 10 + (*at - '0');
    }
    return *word == '0' || number < 1 || number > most ? -1 : number;
}

int number_in_environment(const char *name, int most, int usual)
{
    const char *word = getenv(name);
    int number = word && *word ? number_up_to(word, most) : usual;
    if (number < 0)
        refuse("%s is 1 to %d, not %s", name, most, word);
    return number;
}

bool is_of_libraries(const char *path)
{
    struct stat found;
    char *line = NULL;
    size_t room = 0;
    bool is_there = stat(path, &found) == 0, is = false, says = false;
    if (!is_there || S_ISDIR(found.st_mode))
        return is_there;
    FILE *file = S_ISREG(found.st_mode) ? fopen(path, "re") : NULL;
    while (file && !says && getline(&line, &room, file) >= 0) {
        const char *at = line + strspn(line, " \t\n");
        says = *at && *at != '#';
        is = says && *at != '"' && strchr(at, '"');
    }
    free(line);
    if (file)
        fclose(file);
    return is;
}

const char *name_without(const char *option, const char *word, char stop)
{
    for (const char *at = word; *at; at++)
        if ((unsigned char)*at < ' ' || *at == 127 || *at == stop)
            refuse("%s takes a name without %c and control characters", option, stop);
    return word;
}

const char *words_without(const char *words, const char *word, bool *is_there)
{
    static char *volatile left;
    size_t length = strlen(word);
    free(left);
    left = copy("");
    for (const char *at = words, *end; *at; at = end + (*end == ',')) {
        end = at + strcspn(at, ",");
        if ((size_t)(end - at) == length && memcmp(at, word, length) == 0) {
            *is_there = true;
            continue;
        }
        char *longer = say_text("%s%s%.*s", left, *left ? "," : "", (int)(end - at), at);
        free(left);
        left = longer;
    }
    return left;
}

const char *after_beginning(const char *word, const char *beginning)
{
    size_t length = strlen(beginning);
    return strncmp(word, beginning, length) == 0 ? word + length : NULL;
}

int exit_word(const char *word)
{
    const char *number = after_beginning(word, "exit=");
    return number ? number_up_to(number, 255) : -1;
}

const char *words_in_line(char **words)
{
    static const char plain[] = "ABCDEFGHIJKLMNOPQRSTUVWXYZabcdefghijklmnopqrstuvwxyz0123456789_-+=./,:@%";
    static char *volatile line;
    line = copy("");
    for (; *words; words++) {
        bool is_plain = **words && (*words)[strspn(*words, plain)] == '\0';
        char *longer = say_text("%s%s%s%s%s", line, *line ? " " : "", is_plain ? "" : "'", *words, is_plain ? "" : "'");
        free(line);
        line = longer;
    }
    return line;
}
