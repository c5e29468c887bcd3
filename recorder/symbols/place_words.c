#include "place_words.h"

#include "allocation.h"

static const char nowhere[] = "?:0";

char *place_name(const char *site)
{
    struct code_words words;
    if (!code_words_read(&words, site) || words.function_length == 0)
        return copy_bytes(site, code_length(site));
    bool has_object = words.object_length > 0;
    return say_text("%.*s%.*s%s%.*s%s", (int)words.function_length, words.function, (int)words.within_length,
        words.within, has_object ? " (" : "", (int)code_object_told(&words), words.object, has_object ? ")" : "");
}

char *place_told(const char *site)
{
    struct code_words words;
    char *name = place_name(site ? site : nowhere);
    char *told = say_text("%s %s", code_words_read(&words, site ? site : nowhere) ? "in" : "@", name);
    free(name);
    return told;
}

char *place_in_trace(const char *site)
{
    struct code_words words;
    if (!code_words_read(&words, site) || words.within_length == 0)
        return copy(site);
    return say_text("%.*s%s", (int)(words.within - site), site, words.within + words.within_length);
}

const char *lock_number(const char *name, const char *type)
{
    size_t length = strlen(type);
    bool is_numbered = length > 0 && strncmp(name, type, length) == 0 && name[length] == '/';
    const char *number = is_numbered ? name + length + 1 : "";
    return *number && strspn(number, "0123456789") == strlen(number) ? number : NULL;
}

char *lock_told(const char *name, const char *type)
{
    const char *number = lock_number(name, type);
    return number ? say_text("\"%s\" lock %s", type, number) : say_text("\"%s\"", name);
}
