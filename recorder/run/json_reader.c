#include "json_reader.h"

#include <stdbool.h>
#include <stdlib.h>
#include <string.h>

enum { DEPTH_MOST = 64 };

struct reader {
    const char *at;
    struct texts *texts;
    unsigned depth;
};

static struct value *read_value(struct reader *reader);

static void pass_blanks(struct reader *reader)
{
    reader->at += strspn(reader->at, " \t\r\n");
}

/* Whether the word stands there, which is passed then. */
static bool takes(struct reader *reader, const char *word)
{
    size_t length = strlen(word);
    pass_blanks(reader);
    if (strncmp(reader->at, word, length) != 0)
        return false;
    reader->at += length;
    return true;
}

static int digit_of(char digit)
{
    if (digit >= '0' && digit <= '9')
        return digit - '0';
    digit |= 'a' - 'A';
    return digit >= 'a' && digit <= 'f' ? digit - 'a' + 10 : -1;
}

/* Four hexadecimal digits; -1 where they aren't there. */
static long read_unit(const char *at)
{
    long unit = 0;
    for (int i = 0; i < 4; i++) {
        int digit = digit_of(at[i]);
        if (digit < 0)
            return -1;
        unit = 16 * unit + digit;
    }
    return unit;
}

static char *put_character(char *to, unsigned long character)
{
    if (character < 0x80) {
        *to++ = (char)character;
        return to;
    }
    int more = character < 0x800 ? 1 : character < 0x10000 ? 2 : 3;
    *to++ = (char)((0xf00 >> more & 0xff) | character >> 6 * more);
    while (more-- > 0)
        *to++ = (char)(0x80 | (character >> 6 * more & 0x3f));
    return to;
}

/* After `\u`; NULL where it is none. A character beyond the first 65,536 has two of them. */
static char *read_number_of_character(struct reader *reader, char *to)
{
    long unit = read_unit(reader->at), low;
    if (unit < 0)
        return NULL;
    reader->at += 4;
    if (unit >= 0xd800 && unit < 0xdc00 && strncmp(reader->at, "\\u", 2) == 0
        && (low = read_unit(reader->at + 2)) >= 0xdc00 && low < 0xe000) {
        reader->at += 6;
        unit = 0x10000 + ((unit - 0xd800) << 10) + (low - 0xdc00);
    }
    return put_character(to, (unsigned long)unit);
}

/* After a backslash; NULL where nothing can stand there so. */
static char *read_escape(struct reader *reader, char *to)
{
    static const char letters[] = "\"\\/bfnrt", means[] = "\"\\/\b\f\n\r\t";
    char letter = *reader->at;
    const char *known = letter ? strchr(letters, letter) : NULL;
    if (letter)
        reader->at++;
    if (letter == 'u')
        return read_number_of_character(reader, to);
    if (!known)
        return NULL;
    *to++ = means[known - letters];
    return to;
}

/* After the first quote; NULL where the text doesn't end. */
static const char *read_text(struct reader *reader)
{
    const char *end = reader->at;
    while (*end && *end != '"')
        end += end[0] == '\\' && end[1] ? 2 : 1;
    char *text = texts_room(reader->texts, (size_t)(end - reader->at) + 1), *to = text;
    while (to && *reader->at && *reader->at != '"') {
        if (*reader->at == '\\') {
            reader->at++;
            to = read_escape(reader, to);
        } else {
            *to++ = *reader->at++;
        }
    }
    return to && *reader->at++ == '"' ? text : NULL;
}

static bool read_number(struct reader *reader, struct value *value)
{
    char *end;
    value->kind = VALUE_NUMBER;
    value->number = strtoll(reader->at, &end, 10);
    if (end == reader->at)
        return false;
    reader->at = end + strspn(end, "0123456789.eE+-");
    return true;
}

/* After the bracket. False where the list, or the object, doesn't end. */
static bool read_inner(struct reader *reader, struct value *value, const char *end)
{
    struct value **last = &value->first;
    if (takes(reader, end))
        return true;
    do {
        const char *name = NULL;
        if (value->kind == VALUE_OBJECT && (!takes(reader, "\"") || !(name = read_text(reader)) || !takes(reader, ":")))
            return false;
        *last = read_value(reader);
        if (!*last)
            return false;
        (*last)->name = name;
        last = &(*last)->next;
    } while (takes(reader, ","));
    return takes(reader, end);
}

static bool read_into(struct reader *reader, struct value *value)
{
    if (takes(reader, "null"))
        return true;
    if (takes(reader, "\""))
        return value->kind = VALUE_TEXT, (value->text = read_text(reader)) != NULL;
    if (takes(reader, "{"))
        return value->kind = VALUE_OBJECT, read_inner(reader, value, "}");
    if (takes(reader, "["))
        return value->kind = VALUE_LIST, read_inner(reader, value, "]");
    value->kind = VALUE_TRUTH;
    value->number = takes(reader, "true");
    return value->number || takes(reader, "false") || read_number(reader, value);
}

static struct value *read_value(struct reader *reader)
{
    struct value *value = texts_room(reader->texts, sizeof *value);
    bool is_read = ++reader->depth <= DEPTH_MOST && read_into(reader, value);
    reader->depth--;
    return is_read ? value : NULL;
}

const struct value *json_read(const char *text, struct texts *texts)
{
    struct reader reader = {text, texts, 0};
    const struct value *value = read_value(&reader);
    pass_blanks(&reader);
    return *reader.at == '\0' ? value : NULL;
}

const struct value *value_of(const struct value *object, const char *name)
{
    const struct value *value = object && object->kind == VALUE_OBJECT ? object->first : NULL;
    while (value && strcmp(value->name, name) != 0)
        value = value->next;
    return value;
}

const char *text_of(const struct value *object, const char *name)
{
    const struct value *value = value_of(object, name);
    return value && value->kind == VALUE_TEXT ? value->text : NULL;
}

const char *words_of(const struct value *object, const char *name)
{
    const char *text = text_of(object, name);
    return text ? text : "";
}

long long number_of(const struct value *object, const char *name)
{
    const struct value *value = value_of(object, name);
    return value ? value->number : 0;
}

const struct value *list_of(const struct value *object, const char *name)
{
    const struct value *value = value_of(object, name);
    return value && value->kind == VALUE_LIST ? value->first : NULL;
}
