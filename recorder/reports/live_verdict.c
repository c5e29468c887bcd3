#include "live_verdict.h"

#include <stdlib.h>
#include <string.h>

#include "finding_lines.h"

enum { BUFFER_BYTES = 1 << 16 };

static ssize_t feed(void *cookie, const char *bytes, size_t length)
{
    struct live_verdict *going = cookie;
    verdict_feed(&going->verifier.verdict, bytes, length);
    return (ssize_t)length;
}

/* One that took too long for a grade was ended: another one is begun, which isn't asked for any. */
static bool was_cut_off(struct live_verdict *going)
{
    if (!going->verifier.is_begun || going->has_ended || verifier_goes_on(&going->verifier))
        return false;
    going_leaves(going);
    going->is_slow = true;
    return true;
}

enum resolved going_reads(struct live_verdict *going, struct resolver *resolver, const char *witness,
    const struct stream *stream)
{
    enum resolved resolved = RESOLVED_ANEW;
    bool has_more = !going->resolving || stream->before + stream->length > resolving_read(going->resolving);
    if (going->has_ended && !has_more)
        return RESOLVED;
    if (was_cut_off(going))
        return RESOLVED_ANEW;
    if (!going->resolving)
        going->resolving = resolving_new(resolver, stream);
    if (!going->has_ended)
        verifier_hears(&going->verifier, witness);
    FILE *to = !going->has_ended ? fopencookie(going, "w", (cookie_io_functions_t){.write = feed}) : NULL;
    if (to) {
        setvbuf(to, NULL, _IOFBF, BUFFER_BYTES);
        resolved = resolving_goes_on(going->resolving, stream, to);
        fclose(to);
    }
    if (resolved == RESOLVED_ANEW)
        going_leaves(going);
    return resolved;
}

/* Where the line is kept; NULL where it tells of a moment, or isn't wanted. */
static struct text *kept_in(struct live_verdict *going, const char *line, bool wants_orders)
{
    if (IS_FINDING(line, "report") || IS_FINDING(line, "bad"))
        return &going->kept;
    return wants_orders && IS_FINDING(line, "order") ? &going->orders : NULL;
}

/* Keeps of what was told last, up to so far, what is so from then on. */
static void keep(struct live_verdict *going, size_t length, bool wants_orders)
{
    const char *at = going->verifier.told, *end = at + length, *after;
    for (; at < end && (after = memchr(at, '\n', (size_t)(end - at))) != NULL; at = after + 1) {
        struct text *to = kept_in(going, at, wants_orders);
        if (to)
            text_add(to, at, (size_t)(after + 1 - at));
    }
}

/* What it told of the lines before, and since the last moment. */
static char *told_by(const struct live_verdict *going, size_t *length)
{
    struct text told = {0};
    text_add(&told, going->kept.bytes, going->kept.length);
    if (going->has_ended)
        text_add(&told, going->orders.bytes, going->orders.length);
    text_add(&told, going->verifier.told, going->verifier.length);
    *length = told.length;
    return told.bytes ? told.bytes : copy("");
}

char *going_looks(struct live_verdict *going, struct grades_wanted wanted, bool wants_orders, size_t *length)
{
    struct verifier *verifier = &going->verifier;
    if (!verifier_looks(verifier))
        return NULL;
    size_t moment = verifier->length;
    if (!going->is_slow)
        verifier_grades(verifier, &wanted, verifier->told, moment);
    char *told = told_by(going, length);
    keep(going, moment, wants_orders);
    return told;
}

char *going_ends(struct live_verdict *going, struct grades_wanted wanted, size_t *length)
{
    if (!going->has_ended) {
        if (!verifier_looks(&going->verifier))
            return NULL;
        char *told = told_by(going, length);
        verifier_grades(&going->verifier, &wanted, told, *length);
        verdict_leaves(&going->verifier.verdict);
        free(told);
    }
    going->has_ended = true;
    return told_by(going, length);
}

void going_leaves(struct live_verdict *going)
{
    verifier_leaves(&going->verifier);
    resolving_end(going->resolving);
    free(going->kept.bytes);
    free(going->orders.bytes);
    *going = (struct live_verdict){0};
}
