#include "source_text.h"

#include <ctype.h>
#include <string.h>
#include <strings.h>

bool is_word_byte(char byte)
{
    return isalnum((unsigned char)byte) || byte == '_' || (unsigned char)byte >= 0x80;
}

bool begins_word(char byte)
{
    return is_word_byte(byte) && !isdigit((unsigned char)byte);
}

struct span trimmed(struct span span)
{
    while (span.at < span.end && isspace((unsigned char)*span.at))
        span.at++;
    while (span.at < span.end && isspace((unsigned char)span.end[-1]))
        span.end--;
    return span;
}

/* Blanks in place of strings, characters and comments. A comment or string that doesn't end goes on to the text's end. */
void blank_out(char *text)
{
    for (char *at = text; *at;) {
        char *from = at;
        if (at[0] == '/' && at[1] == '/') {
            at += strcspn(at, "\n");
        } else if (at[0] == '/' && at[1] == '*') {
            char *end = strstr(at + 2, "*/");
            at = end ? end + 2 : at + strlen(at);
        } else if (*at == '"' || (*at == '\'' && (at == text || !is_word_byte(at[-1])))) {
            char quote = *at++;
            while (*at && *at != quote)
                at += at[0] == '\\' && at[1] ? 2 : 1;
            at += *at == quote;
        } else {
            at++;
            continue;
        }
        memset(from, ' ', (size_t)(at - from));
    }
}

/* What follows the bracket that closes the one at `at`; NULL where none does. */
const char *after_bracket(const char *at, const char *end)
{
    unsigned open = 0;
    for (; at < end; at++) {
        open += *at == '(' || *at == '[' || *at == '{';
        if ((*at == ')' || *at == ']' || *at == '}') && --open == 0)
            return at + 1;
    }
    return NULL;
}

static const char *without_space(const char *from, const char *end)
{
    while (end > from && isspace((unsigned char)end[-1]))
        end--;
    return end;
}

static const char *before_word(const char *from, const char *end)
{
    while (end > from && is_word_byte(end[-1]))
        end--;
    return end;
}

/* Where the bracket opens that closes before `end`. NULL where it doesn't. */
static const char *before_bracket(const char *from, const char *end)
{
    unsigned open = 0;
    do {
        end--;
        open += *end == ']' || *end == ')';
        open -= *end == '[' || *end == '(';
    } while (end > from && open > 0);
    return open == 0 ? end : NULL;
}

/* How many bytes the operator between two names has that ends before `end`. 0 where there is none. */
static size_t joint(const char *from, const char *end)
{
    if (end[-1] == '.')
        return 1;
    return end - from >= 2 && (memcmp(end - 2, "->", 2) == 0 || memcmp(end - 2, "::", 2) == 0) ? 2 : 0;
}

/* Where the postfix expression begins that ends before `end`: names, brackets, `.`, `->` and `::`. */
const char *path_begin(const char *from, const char *end)
{
    const char *at = end;
    bool wants_name = true;
    for (;;) {
        const char *before = without_space(from, at);
        if (before == from)
            return at;
        if (wants_name && is_word_byte(before[-1])) {
            before = before_word(from, before);
            wants_name = false;
        } else if (wants_name && (before[-1] == ']' || before[-1] == ')')) {
            before = before_bracket(from, before);
            if (!before)
                return at;
            const char *name = without_space(from, before);
            wants_name = name > from && (is_word_byte(name[-1]) || name[-1] == ']' || name[-1] == ')');
        } else if (!wants_name && joint(from, before) > 0) {
            before -= joint(from, before);
            wants_name = true;
        } else {
            return at;
        }
        at = before;
    }
}

bool has_part(struct span word, const char *part)
{
    size_t length = strlen(part);
    for (const char *at = word.at; at + length <= word.end; at++)
        if (strncasecmp(at, part, length) == 0)
            return true;
    return false;
}

/* The word that ends before `end`; template arguments after it are passed over. */
struct span word_before(const char *from, const char *end)
{
    while (end > from && isspace((unsigned char)end[-1]))
        end--;
    if (end > from && end[-1] == '>' && !(end - from >= 2 && end[-2] == '-')) {
        unsigned open = 0;
        do {
            end--;
            open += *end == '>';
            open -= *end == '<';
        } while (end > from && open > 0);
        while (end > from && isspace((unsigned char)end[-1]))
            end--;
    }
    const char *at = end;
    while (at > from && is_word_byte(at[-1]))
        at--;
    return (struct span){at, end};
}

bool is_word(struct span span, const char *word)
{
    size_t length = strlen(word);
    return (size_t)(span.end - span.at) == length && memcmp(span.at, word, length) == 0;
}

/* Whether what stands between the brackets is the same for each lock: a number, or a constant's name. */
static bool is_constant(const char *at, size_t length)
{
    for (size_t i = 0; i < length; i++)
        if (!is_word_byte(at[i]) || islower((unsigned char)at[i]))
            return false;
    return length > 0;
}

void leave_indices_out(char *path)
{
    char *to = path;
    for (const char *from = path; *from;) {
        const char *after = *from == '[' ? after_bracket(from, from + strlen(from)) : NULL;
        if (!after || is_constant(from + 1, (size_t)(after - from) - 2)) {
            *to++ = *from++;
        } else {
            *to++ = '[';
            *to++ = ']';
            from = after;
        }
    }
    *to = '\0';
}
