#include "texts.h"

#include "allocation.h"

#include <stdarg.h>
#include <stdio.h>
#include <stdlib.h>
#include <string.h>

enum { PIECE_BYTES = 1 << 13, ALIGNMENT = 16 };

struct piece {
    struct piece *next;
    size_t used, room;
    _Alignas(ALIGNMENT) char bytes[];
};

struct texts {
    struct piece *piece; /* the one that has room, then those before it */
};

struct texts *texts_new(void)
{
    return take(sizeof(struct texts));
}

void texts_end(struct texts *texts)
{
    while (texts && texts->piece) {
        struct piece *piece = texts->piece;
        texts->piece = piece->next;
        free(piece);
    }
    free(texts);
}

void *texts_room(struct texts *texts, size_t bytes)
{
    struct piece *piece = texts->piece;
    size_t wanted = (bytes + ALIGNMENT - 1) / ALIGNMENT * ALIGNMENT;
    if (!piece || piece->room - piece->used < wanted) {
        size_t room = wanted > PIECE_BYTES ? wanted : PIECE_BYTES;
        piece = take(sizeof *piece + room);
        piece->room = room;
        piece->next = texts->piece;
        texts->piece = piece;
    }
    void *there = piece->bytes + piece->used;
    piece->used += wanted;
    return there;
}

const char *texts_copy(struct texts *texts, const char *bytes, size_t length)
{
    char *text = texts_room(texts, length + 1);
    if (length > 0)
        memcpy(text, bytes, length);
    return text;
}

const char *texts_say(struct texts *texts, const char *format, ...)
{
    va_list words, again;
    va_start(words, format);
    va_copy(again, words);
    int length = vsnprintf(NULL, 0, format, words);
    char *text = texts_room(texts, (size_t)(length < 0 ? 0 : length) + 1);
    if (length > 0)
        vsnprintf(text, (size_t)length + 1, format, again);
    va_end(again);
    va_end(words);
    return text;
}

bool has_text(const char *const *list, size_t count, const char *text)
{
    size_t at = 0;
    while (at < count && strcmp(list[at], text) != 0)
        at++;
    return at < count;
}

int compare_texts(const void *one, const void *other)
{
    return strcmp(*(const char *const *)one, *(const char *const *)other);
}
