/*
 * A place whose line isn't known, OBJECT+0xOFFSET(FUNCTION+0xWITHIN):0, with the offset in the object and in the function. The
 * object may be missing, what stands in the brackets with them, the second offset, and `:0`.
 */
#ifndef RECORDER_CODE_WORDS_H
#define RECORDER_CODE_WORDS_H

#include <stdbool.h>
#include <stddef.h>
#include <stdint.h>
#include <stdlib.h>
#include <string.h>

/* Pieces of the place's text, which aren't ended by a zero. */
struct code_words {
    const char *object, *function, *within; /* no function has the length 0; `within` is `+0xWITHIN` */
    size_t object_length, function_length, within_length;
    uint64_t offset;
};

/* Where `+0xOFFSET` ends that begins there; NULL where none does. */
static inline const char *code_offset_end(const char *at)
{
    size_t digits = strncmp(at, "+0x", 3) == 0 ? strspn(at + 3, "0123456789abcdef") : 0;
    return digits > 0 ? at + 3 + digits : NULL;
}

/* The place without `:0` at its end. */
static inline size_t code_length(const char *site)
{
    size_t length = strlen(site);
    return length > 2 && strcmp(site + length - 2, ":0") == 0 ? length - 2 : length;
}

/* The function between the brackets, and its offset. */
static inline void code_function_read(struct code_words *words, const char *from, const char *end)
{
    words->function = words->within = from;
    words->function_length = (size_t)(end - from);
    for (const char *at = from; at < end; at++)
        if (code_offset_end(at) == end) {
            words->function_length = (size_t)(at - from);
            words->within = at;
            words->within_length = (size_t)(end - at);
            return;
        }
}

/* False of a place that has a line, and of any other text. */
static inline bool code_words_read(struct code_words *words, const char *site)
{
    const char *end = site + code_length(site);
    for (const char *at = strstr(site, "+0x"); at && at < end; at = strstr(at + 1, "+0x")) {
        const char *after = code_offset_end(at);
        bool has_function = after && after < end && *after == '(' && end[-1] == ')';
        if (!after || (after != end && !has_function))
            continue;
        *words = (struct code_words){.object = site,
            .function = "",
            .within = "",
            .object_length = (size_t)(at - site),
            .offset = strtoull(at + 3, NULL, 16)};
        if (has_function)
            code_function_read(words, after + 1, end - 1);
        return true;
    }
    return false;
}

/* So much of a library's name is told: `libm.so` of `libm.so.6`. */
static inline size_t code_object_told(const struct code_words *words)
{
    const char *object = words->object;
    for (size_t at = 1; at + 4 < words->object_length; at++)
        if (memcmp(object + at, ".so.", 4) == 0 && at + 4 + strspn(object + at + 4, ".0123456789") >= words->object_length)
            return at + 3;
    return words->object_length;
}

#endif
