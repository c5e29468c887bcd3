/*
 * resolved FRAMES FILE..: prints the traces of recorder's files, of which one resolver makes them; or, where there are
 * frames, the lines for the verifier, with their notes. With `types` for FRAMES it prints the types alone: each one's lasting
 * name, its build-id where it doesn't last, and after tabs the name by which it is told, and that by lines. The status is 4
 * where a file is none, or has what no recorder writes. With PIECES in the environment the files are read in pieces of so many
 * lines, as of a program that goes on; on standard error it is told how often one was read anew.
 */
#include <stdio.h>
#include <stdlib.h>
#include <string.h>

#include "resolve.h"

static void print_notes(const struct notes *notes)
{
    for (size_t i = 0; i < notes->spots; i++) {
        const struct spot *spot = &notes->spot[i];
        const struct frames *frames = &notes->frames[spot->frames - 1];
        printf("@:%zu is %s\n", i + 1, spot->site);
        for (size_t j = 0; j < frames->count; j++)
            printf("  %s (%s)\n", frames->frame[j].function ? frames->frame[j].function : "-", frames->frame[j].site);
    }
    for (size_t i = 0; i < notes->events; i++)
        printf("event %d name %s\n", (int)notes->event[i].kind, notes->event[i].name ? notes->event[i].name : "-");
    for (size_t i = 0; i < notes->locks; i++)
        printf("lock %zu is %s of %s\n", i + 1, notes->lock[i].name, notes->lock[i].type);
    for (size_t i = 0; i < notes->single.pairs; i++) {
        const struct single_pair *pair = &notes->single.pair[i];
        size_t first = pair->told;
        while (first && notes->single.telling[first - 1].before)
            first = notes->single.telling[first - 1].before;
        printf("pair %u %u at %s\n", pair->held.type, pair->asked.type,
            first ? single_site(&notes->single, notes->single.telling[first - 1].place) : "-");
    }
}

static void print_types(const struct notes *notes)
{
    for (size_t i = 0; i < notes->aliases; i++) {
        const struct lasting *lasting = &notes->alias[i].lasting;
        printf("%s%s%s\t%s\t%s\n", lasting->name, lasting->lasts ? "" : " of ", lasting->lasts ? "" : lasting->build_id,
            notes->alias[i].type, notes->alias[i].by_lines);
    }
}

/* The end of a piece of so many lines, or of all where that is 0. */
static size_t piece_end(const struct stream *stream, size_t from, unsigned long lines)
{
    for (size_t at = from; lines > 0 && at < stream->length; at++)
        if (stream->bytes[at] == '\n' && --lines == 0)
            return at + 1;
    return stream->length;
}

/* The lines, a text of one's own, and the notes. False where it isn't a recorder's. */
static bool resolve(struct resolver *resolver, const struct stream *stream, char **lines, struct notes *notes)
{
    size_t length, end = 0;
    unsigned long pieces = getenv("PIECES") ? strtoul(getenv("PIECES"), NULL, 10) : 0, anew = 0;
    struct resolving *resolving = resolving_new(resolver, stream);
    enum resolved resolved = RESOLVED;
    FILE *to = open_memstream(lines, &length);
    do {
        end = piece_end(stream, end, pieces);
        size_t read = resolving_read(resolving);
        struct stream piece = *stream;
        piece.before = read;
        piece.bytes += read;
        piece.length = end - read;
        resolved = resolving_goes_on(resolving, &piece, to);
        if (resolved == RESOLVED_ANEW) {
            resolving_end(resolving);
            resolving = resolving_new(resolver, stream);
            rewind(to);
            piece = *stream;
            piece.length = end;
            resolved = resolving_goes_on(resolving, &piece, to);
            anew++;
        }
    } while (end < stream->length);
    fclose(to);
    *notes = resolving_leaves_notes(resolving);
    if (pieces)
        fprintf(stderr, "%lu anew\n", anew);
    return resolved == RESOLVED;
}

static bool print_resolved(struct resolver *resolver, const char *path, bool types)
{
    struct stream stream;
    struct notes notes;
    char *lines;
    if (!stream_open(&stream, path, false))
        return false;
    bool good = resolve(resolver, &stream, &lines, &notes);
    if (types) {
        print_types(&notes);
    } else {
        fputs(lines, stdout);
        print_notes(&notes);
    }
    free(lines);
    notes_end(&notes);
    stream_close(&stream);
    return good;
}

static bool print_trace(struct resolver *resolver, const char *path)
{
    struct stream stream;
    if (!stream_open(&stream, path, false))
        return false;
    bool good = resolve_trace(resolver, &stream, stdout);
    stream_close(&stream);
    return good;
}

static bool print(struct resolver *resolver, const char *frames, const char *path)
{
    if (strcmp(frames, "types") == 0)
        return print_resolved(resolver, path, true);
    return atoi(frames) > 1 ? print_resolved(resolver, path, false) : print_trace(resolver, path);
}

int main(int count, char **words)
{
    struct settings settings = {.frames = count > 1 ? atoi(words[1]) : 1};
    struct resolver *resolver = resolver_new(&settings);
    bool good = count > 2;
    for (int i = 2; i < count; i++)
        good = print(resolver, words[1], words[i]) && good;
    resolver_end(resolver);
    return good ? 0 : 4;
}
