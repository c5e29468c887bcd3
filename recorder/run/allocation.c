#include "allocation.h"

#include <malloc.h>
#include <stdarg.h>
#include <stdio.h>
#include <stdlib.h>
#include <string.h>
#include <unistd.h>

/* At once: what is done at an orderly end would remove the recording. */
static void *there(void *memory)
{
    static const char told[] = "record: there is no memory left: the recording is kept\n";
    if (memory)
        return memory;
    if (write(STDERR_FILENO, told, sizeof told - 1) < 0)
        _exit(126);
    _exit(126);
}

void allocation_begins(void)
{
    mallopt(M_MMAP_THRESHOLD, 1 << 17);
}

void *take(size_t bytes)
{
    return there(calloc(1, bytes ? bytes : 1));
}

void *grow(void *old, size_t count, size_t size)
{
    return there(reallocarray(old, count ? count : 1, size));
}

void *grow_zeroed(void *old, size_t had, size_t count, size_t size)
{
    void *list = there(calloc(count ? count : 1, size));
    if (had > 0)
        memcpy(list, old, had * size);
    free(old);
    return list;
}

char *copy_bytes(const char *bytes, size_t length)
{
    char *text = take(length + 1);
    if (length > 0)
        memcpy(text, bytes, length);
    return text;
}

char *copy(const char *text)
{
    return copy_bytes(text, strlen(text));
}

char *say_text(const char *format, ...)
{
    va_list words;
    char *text = NULL;
    va_start(words, format);
    int length = vasprintf(&text, format, words);
    va_end(words);
    return there(length < 0 ? NULL : text);
}

char *say_count(unsigned long number, const char *what, const char *many)
{
    return say_text("%lu %s%s", number, what, number == 1 ? "" : many);
}

void text_add(struct text *text, const char *bytes, size_t length)
{
    if (text->length + length + 1 > text->room) {
        text->room = 2 * (text->length + length + 1);
        text->bytes = grow(text->bytes, text->room, 1);
    }
    if (length > 0)
        memcpy(text->bytes + text->length, bytes, length);
    text->length += length;
    text->bytes[text->length] = '\0';
}
