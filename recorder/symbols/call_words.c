#include "call_words.h"

#include "allocation.h"
#include "lock_expression.h"
#include "source_names.h"
#include "source_text.h"

#include <stdlib.h>
#include <string.h>

bool lets_go(const char *text)
{
    static const char *const words[] = {"unlock", "release", "leave", "exit"};
    char *plain = copy(text);
    blank_out(plain);
    const char *body = strchr(plain, '{'), *end = plain + strlen(plain), *after = body ? after_bracket(body, end) : NULL;
    bool found = false;
    for (size_t i = 0; after && i < sizeof words / sizeof *words; i++)
        found |= has_part((struct span){body, after}, words[i]);
    free(plain);
    return found;
}

/* What follows a word and blanks around it. */
static const char *after_word(const char *at)
{
    at += strspn(at, " \t\n");
    while (is_word_byte(*at))
        at++;
    return at + strspn(at, " \t\n");
}

/* Where what the function is given begins, with its bracket; NULL where it isn't called there. `Guard name(..)` calls Guard. */
static const char *call_of(const char *text, const char *function)
{
    const char *last = last_part(function);
    size_t length = strcspn(last, "<( ");
    for (const char *at = strstr(text, last); length > 0 && at; at = strstr(at + 1, last)) {
        const char *after = at + length;
        if ((at > text && is_word_byte(at[-1])) || is_word_byte(*after))
            continue;
        after += strspn(after, " \t\n");
        if (begins_word(*after))
            after = after_word(after);
        if (*after == '(' || *after == '{')
            return after;
    }
    return NULL;
}

/* The path before a lone `=`; a list without one where there is none before `end`. */
static struct locked assigned_before(const char *text, const char *end)
{
    struct locked found = {0};
    for (const char *at = text; at < end && found.count == 0; at++) {
        bool is_lone = *at == '=' && at[1] != '=' && at > text && !strchr("=!<>+-*/%&|^", at[-1]);
        if (is_lone)
            locked_add(&found, (struct span){path_begin(text, at), at});
    }
    return found;
}

char *call_word(const char *text, const char *function)
{
    char *plain = copy(text);
    blank_out(plain);
    const char *call = call_of(plain, function), *end = plain + strlen(plain);
    struct locked found = assigned_before(plain, call ? call : end);
    if (found.count == 0 && call) {
        const char *after = after_bracket(call, end);
        locked_add_arguments(&found, (struct span){call + 1, after ? after - 1 : end}, false);
    }
    char *word = found.count > 0 ? copy(found.expression[0]) : NULL;
    locked_end(&found);
    free(plain);
    if (word)
        leave_indices_out(word);
    return word;
}

bool has_call(const char *text, const char *function)
{
    char *line = copy_bytes(text, strcspn(text, "\n"));
    blank_out(line);
    bool is_called = call_of(line, function) != NULL;
    free(line);
    return is_called;
}
