#include "escape.h"

#include <stdbool.h>
#include <stdint.h>
#include <string.h>

/* What stands for bytes that aren't UTF-8, and as UTF-8. */
enum { REPLACEMENT = 0xfffd };
#define REPLACED "\xef\xbf\xbd"

/* How many bytes a character has that begins with this one, and what that one gives to it; 0 where none begins so. */
static size_t length_by_first(unsigned char byte, uint32_t *code)
{
    if (byte < 0x80) {
        *code = byte;
        return 1;
    }
    if (byte >= 0xc2 && byte <= 0xdf) {
        *code = byte & 0x1fu;
        return 2;
    }
    if (byte >= 0xe0 && byte <= 0xef) {
        *code = byte & 0x0fu;
        return 3;
    }
    if (byte >= 0xf0 && byte <= 0xf4) {
        *code = byte & 0x07u;
        return 4;
    }
    return 0;
}

/*
 * The first character of a text that isn't empty, and how many bytes it has. A byte that begins no character of UTF-8 is
 * one of its own: REPLACEMENT.
 */
static uint32_t first_character(const char *text, size_t length, size_t *bytes)
{
    uint32_t code = 0;
    size_t needs = length_by_first((unsigned char)text[0], &code);
    bool is_good = needs > 0 && needs <= length;
    for (size_t i = 1; is_good && i < needs; i++) {
        unsigned char byte = (unsigned char)text[i];
        is_good = (byte & 0xc0u) == 0x80u;
        code = code << 6 | (byte & 0x3fu);
    }
    /* Longer than it has to be, half of a pair of UTF-16, or beyond all characters. */
    if (is_good
        && ((needs == 3 && code < 0x800) || (needs == 4 && code < 0x10000) || code > 0x10ffff
            || (code >= 0xd800 && code <= 0xdfff)))
        is_good = false;
    *bytes = is_good ? needs : 1;
    return is_good ? code : REPLACEMENT;
}

void escape_json(FILE *to, const char *text)
{
    size_t bytes;
    for (size_t left = strlen(text); left > 0; text += bytes, left -= bytes) {
        uint32_t code = first_character(text, left, &bytes);
        if (code == '"' || code == '\\')
            fprintf(to, "\\%c", (int)code);
        else if (code < 0x20 || (code >= 0x7f && code < 0xa0) || code == 0x2028 || code == 0x2029)
            fprintf(to, "\\u%04x", (unsigned)code);
        else if (code == REPLACEMENT)
            fputs(REPLACED, to);
        else
            fwrite(text, 1, bytes, to);
    }
}
