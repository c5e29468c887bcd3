#include "line.h"

#include <string.h>

#include "allocation.h"
#include "format.h"
#include "source_names.h"

static bool is_blank(char byte)
{
    return byte == ' ' || byte == '\t';
}

bool line_next(struct line *line, const char **at, const char *end)
{
    if (*at >= end)
        return false;
    const char *from = *at, *newline = memchr(from, '\n', (size_t)(end - from));
    line->at = from;
    line->end = newline ? newline : end;
    line->count = 0;
    *at = newline ? newline + 1 : end;
    while (line->count < FIELDS_MOST) {
        while (from < line->end && is_blank(*from))
            from++;
        if (from == line->end)
            break;
        struct field *field = &line->field[line->count++];
        field->at = from;
        while (from < line->end && !is_blank(*from))
            from++;
        field->length = (size_t)(from - field->at);
    }
    return true;
}

bool field_is(const struct line *line, unsigned number, const char *word)
{
    size_t length = strlen(word);
    return number < line->count && line->field[number].length == length
        && memcmp(line->field[number].at, word, length) == 0;
}

bool field_number(const struct line *line, unsigned number, uint32_t most, uint32_t *value)
{
    uint64_t read = 0;
    if (number >= line->count)
        return false;
    for (size_t i = 0; i < line->field[number].length; i++) {
        char digit = line->field[number].at[i];
        if (digit < '0' || digit > '9')
            return false;
        read = read * 10 + (uint64_t)(digit - '0');
        if (read > most)
            return false;
    }
    *value = (uint32_t)read;
    return true;
}

static int digit_of(char byte)
{
    if (byte >= '0' && byte <= '9')
        return byte - '0';
    return byte >= 'a' && byte <= 'f' ? byte - 'a' + 10 : -1;
}

bool field_hexadecimal(const struct line *line, unsigned number, uint64_t *value)
{
    uint64_t read = 0;
    if (number >= line->count || line->field[number].length > 16)
        return false;
    for (size_t i = 0; i < line->field[number].length; i++) {
        int digit = digit_of(line->field[number].at[i]);
        if (digit < 0)
            return false;
        read = read << 4 | (uint64_t)digit;
    }
    *value = read;
    return true;
}

char *field_word(const struct line *line, unsigned number)
{
    if (number >= line->count || field_is(line, number, NO_NAME))
        return NULL;
    char *word = copy_bytes(line->field[number].at, line->field[number].length);
    undo_escapes(word);
    return word;
}
