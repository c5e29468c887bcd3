#include "lock_expression.h"

#include "allocation.h"

#include <ctype.h>
#include <stdbool.h>
#include <stdlib.h>
#include <string.h>

/* `(struct cache *)` at the head, as what follows; else the span as it is. */
static struct span without_cast(struct span span)
{
    if (span.at >= span.end || *span.at != '(')
        return span;
    const char *after = after_bracket(span.at, span.end);
    if (!after)
        return span;
    struct span rest = trimmed((struct span){after, span.end});
    const char *last = after - 2;
    while (last > span.at && isspace((unsigned char)*last))
        last--;
    bool is_cast = rest.at < rest.end && (begins_word(*rest.at) || *rest.at == '&' || *rest.at == '(') && *last == '*';
    return is_cast ? rest : span;
}

/* Without `&`, `*`, casts and brackets around it. */
static struct span bared(struct span span)
{
    for (;;) {
        struct span inner = trimmed(span);
        if (inner.at < inner.end && (*inner.at == '&' || *inner.at == '*'))
            inner.at++;
        inner = without_cast(inner);
        if (inner.at < inner.end && *inner.at == '(' && after_bracket(inner.at, inner.end) == inner.end)
            inner = (struct span){inner.at + 1, inner.end - 1};
        if (inner.at == span.at && inner.end == span.end)
            return span;
        span = inner;
    }
}

/* Whether all of it is one path. */
static bool is_path(struct span span)
{
    return span.at < span.end && (begins_word(*span.at) || *span.at == '(') && path_begin(span.at, span.end) == span.at
        && (is_word_byte(span.end[-1]) || span.end[-1] == ']' || span.end[-1] == ')');
}

/* A path without blanks, and without `this->`. There is room for an arrow after it. */
static char *normal(struct span span)
{
    char *text = take((size_t)(span.end - span.at) + sizeof "->"), *to = text;
    for (const char *at = span.at; at < span.end; at++)
        if (!isspace((unsigned char)*at))
            *to++ = *at;
    if (strncmp(text, "this->", 6) == 0)
        memmove(text, text + 6, strlen(text + 6) + 1);
    return text;
}

static bool is_word_of(const char *text, const char *const *words, size_t count)
{
    for (size_t i = 0; i < count; i++)
        if (strcmp(text, words[i]) == 0)
            return true;
    return false;
}

/* How a guard is to take its lock; and what stands for no object. */
static bool is_no_lock(const char *text)
{
    static const char *const words[] = {"std::adopt_lock", "std::defer_lock", "std::try_to_lock", "adopt_lock",
        "defer_lock", "try_to_lock", "void", "NULL", "nullptr", "true", "false", "this", "sizeof", "return"};
    return is_word_of(text, words, sizeof words / sizeof *words);
}

static void add(struct locked *locked, struct span span, bool is_arrow)
{
    span = bared(span);
    if (!is_path(span))
        return;
    char *text = normal(span);
    bool is_new = !is_no_lock(text);
    if (is_arrow)
        strcat(text, "->");
    for (size_t i = 0; i < locked->count; i++)
        is_new = is_new && strcmp(locked->expression[i], text) != 0;
    if (is_new && locked->count < EXPRESSIONS_MOST)
        locked->expression[locked->count++] = text;
    else
        free(text);
}

void locked_add(struct locked *locked, struct span span)
{
    add(locked, span, false);
}

void locked_add_arguments(struct locked *locked, struct span inside, bool all)
{
    unsigned open = 0;
    size_t before = locked->count;
    const char *from = inside.at;
    for (const char *at = inside.at; at <= inside.end && (all || locked->count == before); at++) {
        if (at == inside.end || (*at == ',' && open == 0)) {
            add(locked, (struct span){from, at}, false);
            from = at + 1;
        } else {
            open += *at == '(' || *at == '[' || *at == '{';
            open -= *at == ')' || *at == ']' || *at == '}';
        }
    }
}

/* Whether what is called so takes or makes a lock. */
static bool is_of_locks(struct span word)
{
    static const char *const none[] = {"unlock", "destroy", "release", "clock_", "block", "assert", "attr", "wait",
        "free"};
    static const char *const some[] = {"lock", "mutex", "guard", "acquire", "mtx", "monitor", "witness_"};
    for (size_t i = 0; i < sizeof none / sizeof *none; i++)
        if (has_part(word, none[i]))
            return false;
    for (size_t i = 0; i < sizeof some / sizeof *some; i++)
        if (has_part(word, some[i]))
            return true;
    return false;
}

static bool follows_arrow(const char *from, const char *at)
{
    while (at > from && isspace((unsigned char)at[-1]))
        at--;
    return at > from && (at[-1] == '.' || (at - from >= 2 && at[-1] == '>' && at[-2] == '-'));
}

/* Whether the function is one of a library's whose first argument is the lock. Any other may take several. */
static bool takes_lock_first(struct span word)
{
    static const char *const begins[] = {"pthread_", "mtx_", "g_mutex_", "g_rec_mutex_", "g_rw_lock_", "omp_", "uv_",
        "witness_"};
    for (size_t i = 0; i < sizeof begins / sizeof *begins; i++)
        if ((size_t)(word.end - word.at) >= strlen(begins[i]) && strncmp(word.at, begins[i], strlen(begins[i])) == 0)
            return true;
    return false;
}

/* A call, or a guard that is made, whose bracket opens there. */
static void read_call(struct locked *locked, const char *text, const char *bracket, const char *end)
{
    const char *after = after_bracket(bracket, end);
    struct span inside = {bracket + 1, after ? after - 1 : end};
    struct span word = word_before(text, bracket);
    if (word.at == word.end || !begins_word(*word.at))
        return;
    if (follows_arrow(text, word.at)) {
        const char *arrow = word.at;
        while (isspace((unsigned char)arrow[-1]))
            arrow--;
        bool is_arrow = arrow[-1] == '>';
        arrow -= is_arrow ? 2 : 1;
        if (is_of_locks(word)) {
            add(locked, (struct span){path_begin(text, arrow), arrow}, is_arrow);
            locked->is_bare = true;
        }
        return;
    }
    struct span type = word_before(text, word.at);
    bool is_guard = type.at < type.end && is_of_locks(type), is_given = is_word(type, "return");
    if (!is_guard && !is_of_locks(word))
        return;
    locked_add_arguments(locked, inside, is_guard || !takes_lock_first(word));
    locked->is_bare |= is_given || (!is_guard && !has_part(word, "guard") && !has_part(word, "scoped"));
}

void locked_read(struct locked *locked, const char *text)
{
    char *plain = copy(text);
    *locked = (struct locked){0};
    blank_out(plain);
    const char *end = plain + strlen(plain);
    for (const char *at = plain; at < end; at++)
        if (*at == '(' || *at == '{')
            read_call(locked, plain, at, end);
    free(plain);
}

void locked_end(struct locked *locked)
{
    for (size_t i = 0; i < locked->count; i++)
        free(locked->expression[i]);
    *locked = (struct locked){0};
}
