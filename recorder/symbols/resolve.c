#include "resolve.h"

#include "allocation.h"
#include "columns.h"
#include "declarations.h"
#include "ignore_file.h"
#include "right_orders.h"
#include "sites.h"
#include "symbols.h"
#include "texts.h"
#include "trace.h"
#include "type_names.h"
#include "types.h"
#include "verifier_lines.h"

#include <stdlib.h>
#include <string.h>

struct resolver {
    const struct settings *settings;
    struct symbols *symbols;
    struct ignore_file ignore;
    struct right_orders right;
    struct told_names *told;
};

struct resolver *resolver_new(const struct settings *settings)
{
    struct resolver *resolver = take(sizeof *resolver);
    resolver->settings = settings;
    resolver->symbols = symbols_new(settings->skip);
    resolver->told = told_names_new();
    if (settings->ignore && *settings->ignore)
        ignore_file_read(&resolver->ignore, settings->ignore);
    const char *right = settings->right ? settings->right : settings->right_usually;
    if (right && strcmp(right, "-") != 0)
        right_orders_read(&resolver->right, right);
    return resolver;
}

void resolver_end(struct resolver *resolver)
{
    if (!resolver)
        return;
    symbols_end(resolver->symbols);
    told_names_end(resolver->told);
    ignore_file_end(&resolver->ignore);
    right_orders_end(&resolver->right);
    free(resolver);
}

const struct ignore_file *resolver_ignore(const struct resolver *resolver)
{
    return &resolver->ignore;
}

void resolver_keeps(struct resolver *resolver, const struct stream *stream, const struct alias *alias)
{
    told_names_add(resolver->told, stream->path, alias->source, alias->type);
}

struct resolving {
    struct resolver *resolver;
    char *path;
    size_t read;
    size_t crowded; /* types that were crowded by then */
    bool is_bad;
    struct declared declared;
    struct types types;
    struct sites sites;
    struct right_requests *requests;
    struct making making;
    struct verifier_lines *lines;
    struct notes notes;
};

struct resolving *resolving_new(struct resolver *resolver, const struct stream *stream)
{
    const struct settings *settings = resolver->settings;
    struct resolving *resolving = take(sizeof *resolving);
    bool is_learnt = (settings->learn && *settings->learn) || (settings->known && *settings->known);
    resolving->resolver = resolver;
    resolving->path = copy(stream->path);
    resolving->notes.texts = texts_new();
    declared_begin(&resolving->declared, resolver->symbols);
    sites_begin(&resolving->sites, &resolving->declared, settings->directory, resolving->notes.texts);
    resolving->requests = right_requests_new(&resolver->right, &resolving->declared);
    resolving->making = (struct making){
        .declared = &resolving->declared,
        .types = &resolving->types,
        .ignored = &resolving->notes.ignored,
        .sites = &resolving->sites,
        .frames = settings->frames > 1 ? (size_t)settings->frames : 1,
        .is_learnt = is_learnt,
        .has_pairs = is_learnt || settings->confirm > 0,
        .progress = settings->progress,
    };
    resolving->lines = verifier_lines_new(&resolving->making, &resolving->notes);
    return resolving;
}

void resolving_end(struct resolving *resolving)
{
    if (!resolving)
        return;
    verifier_lines_end(resolving->lines);
    right_requests_end(resolving->requests);
    types_end(&resolving->types);
    sites_end(&resolving->sites);
    declared_end(&resolving->declared);
    notes_end(&resolving->notes);
    free(resolving->path);
    free(resolving);
}

size_t resolving_read(const struct resolving *resolving)
{
    return resolving->read;
}

const struct notes *resolving_notes(const struct resolving *resolving)
{
    return &resolving->notes;
}

struct notes resolving_leaves_notes(struct resolving *resolving)
{
    struct notes notes = resolving->notes;
    notes.derived = resolving->declared.derived;
    resolving->declared.derived = NULL;
    resolving->notes = (struct notes){0};
    resolving_end(resolving);
    return notes;
}

/* Names the types that are there by now. False where earlier ones have come to be one. */
static bool name_types(struct resolving *resolving)
{
    struct declared *declared = &resolving->declared;
    struct types before = resolving->types;
    struct texts *derived = declared->derived;
    declared->derived = texts_new();
    columns_of_labels(declared);
    types_begin(&resolving->types, declared);
    type_names_give(&resolving->types, declared, resolving->resolver->told, resolving->path);
    enum types_stay stay = types_stay(&before, &resolving->types);
    verifier_lines_note_types(resolving->lines);
    if (stay == TYPES_RENAMED)
        verifier_lines_rename(resolving->lines);
    types_end(&before);
    texts_end(derived);
    declared->has_news = false;
    return stay != TYPES_MERGED;
}

/* Reads what the lines declare. False where types that were written before have come to be one. */
static bool declare(struct resolving *resolving, const char *at, const char *end)
{
    struct declared *declared = &resolving->declared;
    bool is_first = resolving->read == 0;
    declared_read(declared, at, end, resolving->making.progress);
    bool has_news = columns_go_on(declared) || declared->has_news;
    bool is_crowded = declared->crowded > resolving->crowded;
    resolving->crowded = declared->crowded;
    if ((has_news || is_first) && !name_types(resolving))
        return false;
    if (is_crowded && !is_first)
        return false;
    bool has_requests = right_requests_read(resolving->requests, &resolving->types, at, end);
    if (!has_news && !is_first && !has_requests)
        return true;
    ignore_file_note(&resolving->notes, &resolving->resolver->ignore, &resolving->types);
    right_requests_ignore(resolving->requests, &resolving->types, &resolving->notes);
    return true;
}

enum resolved resolving_goes_on(struct resolving *resolving, const struct stream *stream, FILE *lines)
{
    if (resolving->resolver->ignore.is_unread)
        return RESOLVED_BADLY;
    if (resolving->read < stream->before || resolving->read > stream->before + stream->length)
        return RESOLVED_ANEW;
    const char *at = stream->bytes + (resolving->read - stream->before), *end = stream->bytes + stream->length;
    resolving->making.stream = stream;
    resolving->making.progress = resolving->resolver->settings->progress;
    if (!declare(resolving, at, end))
        return RESOLVED_ANEW;
    resolving->is_bad |= !verifier_lines_write(resolving->lines, at, end, lines);
    resolving->is_bad |= resolving->declared.is_odd;
    resolving->read = stream->before + stream->length;
    return resolving->is_bad ? RESOLVED_BADLY : RESOLVED;
}

bool resolve_trace(struct resolver *resolver, const struct stream *stream, FILE *trace)
{
    if (resolver->ignore.is_unread)
        return false;
    struct resolving *resolving = resolving_new(resolver, stream);
    resolving->making.stream = stream;
    declare(resolving, stream->bytes, stream->bytes + stream->length);
    bool written = trace_write(&resolving->making, trace) && !resolving->declared.is_odd;
    resolving_end(resolving);
    return written;
}
