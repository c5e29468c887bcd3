#include "json_place.h"

#include <limits.h>
#include <stdlib.h>
#include <string.h>

#include "allocation.h"
#include "place_words.h"
#include "site_parts.h"

/* As a trace has it; null of none. */
void json_trace_site(struct objects *to, const char *name, const char *site)
{
    char *bare = site ? place_in_trace(site) : NULL;
    object_text(to, name, bare);
    free(bare);
}

/* The place as it is told, where that is another text. */
static void write_name(struct objects *to, const char *site)
{
    char *name = place_name(site), *bare = place_in_trace(site);
    object_maybe(to, "name", strcmp(name, bare) == 0 ? NULL : name);
    free(name);
    free(bare);
}

/* The object of a place without a line, and where in it that is: as far as they are known. */
static void write_object(struct objects *to, const char *site)
{
    struct site_parts parts;
    struct code_words code;
    bool is_code = code_words_read(&code, site), is_place = site_parts_read(&parts, site) && parts.line == 0;
    char *object = is_place ? copy_bytes(site, is_code ? code.object_length : parts.length) : NULL;
    object_maybe(to, "object", object);
    if (is_code)
        object_number(to, "offset", code.offset > LLONG_MAX ? LLONG_MAX : (long long)code.offset);
    free(object);
}

/* The place with its file and its line, each null where it isn't known. */
void json_site(struct objects *to, const char *site)
{
    struct site_parts parts;
    bool is_place = site && site_parts_read(&parts, site);
    char *file = is_place && parts.line > 0 ? copy_bytes(parts.file, parts.length) : NULL;
    json_trace_site(to, "site", site);
    object_text(to, "file", file);
    object_known(to, "line", file ? parts.line : 0);
    free(file);
    if (site) {
        write_name(to, site);
        write_object(to, site);
    }
}

void json_thread(struct objects *to, const char *name, long number, const struct event *known)
{
    struct code_words code;
    if (number == 0) {
        object_text(to, name, NULL);
        return;
    }
    object_open(to, name, '{');
    object_number(to, "number", number);
    object_text(to, "name", known ? known->name : NULL);
    object_text(to, "maker", known ? known->maker : NULL);
    json_trace_site(to, "made", known ? known->site : NULL);
    if (known && known->site && code_words_read(&code, known->site)) {
        char *place = place_name(known->site);
        object_text(to, "made_in", place);
        free(place);
    }
    object_close(to, '{');
}

static void write_callers(struct objects *to, const struct frames *frames)
{
    object_open(to, "callers", '[');
    for (size_t i = 0; frames && i < frames->count; i++) {
        object_open(to, NULL, '{');
        object_text(to, "function", frames->frame[i].function);
        json_site(to, frames->frame[i].site);
        object_close(to, '{');
    }
    object_close(to, '[');
}

void json_code(struct objects *to, const struct code_place *code)
{
    object_text(to, "object", code->object);
    object_text(to, "build_id", code->build_id);
    object_number(to, "offset", (long long)code->offset);
    object_truth(to, "named", code->is_named);
}

/* The calls by which a later run finds the place again. */
void json_calls(struct objects *to, const struct frames *frames)
{
    object_open(to, "calls", '[');
    for (size_t i = 0; frames && i < frames->calls; i++) {
        object_open(to, NULL, '{');
        json_code(to, &frames->call[i].code);
        if (frames->call[i].rest.object) {
            object_open(to, "rest", '{');
            json_code(to, &frames->call[i].rest);
            object_close(to, '{');
        } else {
            object_text(to, "rest", NULL);
        }
        object_close(to, '{');
    }
    object_close(to, '[');
}

void json_where(struct objects *to, const struct report_line *line)
{
    json_site(to, line->site);
    json_thread(to, "thread", line->thread, line->known);
    write_callers(to, line->frames);
    json_calls(to, line->frames);
    object_number(to, "at", (long long)line->at);
}

/* Where a thread of a hang was; null where that isn't known. */
void json_place(struct objects *to, const char *name, const char *site)
{
    if (!site) {
        object_text(to, name, NULL);
        return;
    }
    object_open(to, name, '{');
    json_site(to, site);
    object_close(to, '{');
}
