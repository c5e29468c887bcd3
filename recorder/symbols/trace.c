#include "trace.h"

#include "format.h"
#include "place_words.h"
#include "progress.h"
#include "stream_locks.h"
#include "type_names.h"

#include <stdlib.h>
#include <string.h>

enum { CHUNKS_MOST = 65536, LINES_BETWEEN = 1 << 16 };

struct writing {
    const struct making *making;
    FILE *trace;
    struct lock_counts counts;
    bool is_odd;
};

/* The line as it stands. */
static void put_line(struct writing *writing, const struct line *line)
{
    fwrite_unlocked(line->at, 1, (size_t)(line->end - line->at), writing->trace);
    putc_unlocked('\n', writing->trace);
}

static size_t at_least_one(size_t count)
{
    return count ? count : 1;
}

/* The name, in quotes, as a trace has room for it. */
static void put_name(FILE *trace, const char *before, const char *name)
{
    char cut[TRACE_NAME_MOST + 1];
    trace_name(cut, name);
    fprintf(trace, "%s\"%s\"", before, cut);
}

static void write_header(const struct making *making, FILE *trace)
{
    const struct declared *declared = making->declared;
    size_t chunks = declared->seats * declared->held;
    fprintf(trace, "witness-trace 1 seats %zu types %zu locks %zu chunks %zu\nprofile all\n",
        at_least_one(declared->seats), at_least_one(making->types->different), at_least_one(declared->locks),
        at_least_one(chunks > CHUNKS_MOST ? CHUNKS_MOST : chunks));
    for (size_t i = 0; i < making->ignored->pairs; i++) {
        put_name(trace, "bless ", making->ignored->pair[i].first);
        put_name(trace, " ", making->ignored->pair[i].second);
        putc('\n', trace);
    }
}

/* A call's line with its place, which is the field of that number; before it the fields up to the other one. */
static void put_placed(struct writing *writing, const struct line *line, unsigned before, unsigned field)
{
    uint32_t place;
    fwrite_unlocked(line->at, 1, (size_t)(line->field[before].at - line->at), writing->trace);
    if (before < field)
        fputs(CHECK_ASKS " ", writing->trace);
    if (!field_number(line, field, PLACE_MOST - 1, &place))
        place = 0;
    char *site = place_in_trace(site_of(writing->making->sites, place));
    fputs(site, writing->trace);
    putc_unlocked('\n', writing->trace);
    free(site);
}

/* One that a build for tests has marked is a request as any other. */
static void put_check(struct writing *writing, const struct line *line)
{
    if (line->count > 5)
        put_placed(writing, line, 4, 5);
    else
        put_line(writing, line);
}

static void put_try(struct writing *writing, const struct line *line)
{
    if (line->count > 4)
        put_placed(writing, line, 4, 4);
    else
        put_line(writing, line);
}

/* A trace has no flag for processes. */
static void put_init(struct writing *writing, const struct line *line)
{
    const struct making *making = writing->making;
    struct made_lock made;
    if (!made_lock_read(&made, line, making->declared, making->types, &writing->counts))
        writing->is_odd = true;
    if (line->count < 4) {
        put_line(writing, line);
        return;
    }
    struct field flags = line->field[3];
    const char *name = made_lock_name(&made, making->declared, making->types);
    const char *type = made_type_name(&made, making->types);
    bool is_ignored = why_ignored(making->ignored, type, type) != NOT_IGNORED;
    bool is_recursive = memchr(flags.at, *INIT_RECURSIVE, flags.length);
    fwrite_unlocked(line->at, 1, (size_t)(flags.at - line->at), writing->trace);
    fputs(is_recursive ? INIT_RECURSIVE : is_ignored ? "" : NO_NAME, writing->trace);
    put_name(writing->trace, is_ignored ? "d " : " ", name);
    if (strcmp(name, type) != 0)
        put_name(writing->trace, " ", type);
    putc_unlocked('\n', writing->trace);
}

/* Each word that a trace has, those that are met most often first. */
static const struct {
    const char *word;
    void (*puts)(struct writing *writing, const struct line *line);
} words[] = {
    {WORD_CHECK, put_check},
    {WORD_LOCK, put_line},
    {WORD_UNLOCK, put_line},
    {WORD_TRY, put_try},
    {WORD_GIVEUP, put_line},
    {WORD_INIT, put_init},
};

static void write_line(struct writing *writing, const struct line *line)
{
    for (size_t i = 0; i < sizeof words / sizeof *words; i++)
        if (field_is(line, 0, words[i].word)) {
            words[i].puts(writing, line);
            return;
        }
}

bool trace_write(const struct making *making, FILE *trace)
{
    struct line line;
    const char *at = making->stream->bytes, *end = making->stream->bytes + making->stream->length;
    struct writing writing = {.making = making, .trace = trace};
    write_header(making, trace);
    for (unsigned long lines = 1; line_next(&line, &at, end); lines++) {
        write_line(&writing, &line);
        if (lines % LINES_BETWEEN == 0 && ferror(trace))
            break;
        if (making->progress)
            progress_resolved(lines, making->declared->lines);
    }
    lock_counts_end(&writing.counts);
    return fflush(trace) == 0 && !ferror(trace) && !writing.is_odd;
}
