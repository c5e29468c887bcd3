#include "symbols.h"

#include <stdlib.h>
#include <string.h>

#include "allocation.h"
#include "debug_frames.h"
#include "demangle.h"
#include "map.h"
#include "source_names.h"
#include "texts.h"

/* Of a function that the source gives no name. */
#define NAMELESS "??"

struct binary {
    struct symbols *symbols;
    char *path;
    struct map known; /* the code at an address, in the texts */
    struct object_file file;
    bool has_file; /* it was read */
    struct debug_info *debug;
    bool has_debug; /* it was looked for */
};

/* In the source: as it stands there, and of a function as it is told. */
struct name {
    const char *whole, *function;
};

struct symbols {
    const char *patterns;
    struct texts *texts;
    struct map by_path; /* a binary's number, from 1 on */
    struct binary **binary;
    size_t binaries, binary_room;
    struct map names; /* an object's name in the source, in the texts */
    struct source_lines *lines;
    struct lock_names *lock_names;
};

struct symbols *symbols_new(const char *patterns)
{
    struct symbols *symbols = take(sizeof *symbols);
    symbols->patterns = patterns ? patterns : "";
    symbols->texts = texts_new();
    symbols->lines = source_lines_new();
    symbols->lock_names = lock_names_new();
    return symbols;
}

static void binary_end(struct binary *binary)
{
    debug_info_end(binary->debug);
    map_end(&binary->known);
    free(binary->path);
    free(binary);
}

void symbols_end(struct symbols *symbols)
{
    for (size_t i = 0; i < symbols->binaries; i++)
        binary_end(symbols->binary[i]);
    free(symbols->binary);
    map_end(&symbols->by_path);
    map_end(&symbols->names);
    source_lines_end(symbols->lines);
    lock_names_end(symbols->lock_names);
    texts_end(symbols->texts);
    free(symbols);
}

struct binary *symbols_binary(struct symbols *symbols, const char *path)
{
    size_t *number = map_add_text(&symbols->by_path, path);
    if (*number == 0) {
        struct binary *binary = take(sizeof *binary);
        binary->symbols = symbols;
        binary->path = copy(path);
        ADD(symbols->binary, symbols->binaries, symbols->binary_room) = binary;
        *number = symbols->binaries;
    }
    return symbols->binary[*number - 1];
}

const struct object_file *binary_file(struct binary *binary)
{
    if (!binary->has_file)
        binary->file = object_file_read(binary->path, binary->symbols->texts);
    binary->has_file = true;
    return &binary->file;
}

struct debug_info *binary_debug(struct binary *binary)
{
    if (!binary->has_debug)
        binary->debug = debug_info_open(binary->path);
    binary->has_debug = true;
    return binary->debug;
}

struct lock_names *symbols_lock_names(const struct symbols *symbols)
{
    return symbols->lock_names;
}

struct source_lines *symbols_lines(const struct symbols *symbols)
{
    return symbols->lines;
}

/* The function as it is told. One without a line is none of the frames, but names what was inlined there. */
static void add_frame(struct symbols *symbols, struct code *code, struct inlined *to, struct debug_frame *frame)
{
    bool is_of_source = frame->site && is_of_library(frame->function ? frame->function : NAMELESS, frame->site);
    if (frame->function)
        shorten(frame->function);
    const char *function = frame->function ? frame->function : NAMELESS;
    function = texts_copy(symbols->texts, function, strlen(function));
    if (frame->function)
        code->function = function;
    if (frame->site) {
        const char *site = texts_copy(symbols->texts, frame->site, strlen(frame->site));
        to[code->count++] = (struct inlined){function, site, is_of_source};
    }
    free(frame->function);
    free(frame->site);
}

static const struct code *read_code(struct binary *binary, uint64_t offset)
{
    struct symbols *symbols = binary->symbols;
    struct debug_frame frame[SCOPES_MOST];
    struct debug_info *info = binary_debug(binary);
    size_t count = info ? debug_info_frames(info, offset, frame, SCOPES_MOST) : 0;
    struct code *code = texts_room(symbols->texts, sizeof *code);
    struct inlined *inlined = texts_room(symbols->texts, count * sizeof *inlined);
    *code = (struct code){.frame = inlined};
    for (size_t i = 0; i < count; i++)
        add_frame(symbols, code, inlined, &frame[i]);
    for (size_t i = 0; i + 1 < code->count; i++)
        inlined[i].is_skipped |= is_wrapper(inlined[i].function, symbols->patterns);
    return code;
}

const struct code *binary_code(struct binary *binary, uint64_t offset)
{
    static const struct code nothing;
    if (!binary)
        return &nothing;
    const void **code = map_thing(&binary->known, &offset, sizeof offset);
    if (!*code)
        *code = read_code(binary, offset);
    return *code;
}

static const struct name *read_name(struct symbols *symbols, const char *name)
{
    struct name *read = texts_room(symbols->texts, sizeof *read);
    char *demangled = demangle(name), *function = copy(demangled ? demangled : name);
    read->whole = texts_copy(symbols->texts, function, strlen(function));
    shorten(function);
    read->function = texts_copy(symbols->texts, function, strlen(function));
    free(demangled);
    free(function);
    return read;
}

static const struct name *name_in_source(struct symbols *symbols, const char *name)
{
    const void **known = map_thing(&symbols->names, name, strlen(name));
    if (!*known)
        *known = read_name(symbols, name);
    return *known;
}

const char *symbols_name(struct symbols *symbols, const char *name)
{
    return name_in_source(symbols, name)->whole;
}

const char *symbols_function(struct symbols *symbols, const char *name)
{
    return name_in_source(symbols, name)->function;
}
