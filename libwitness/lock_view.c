/* What a program asks to be shown (witness_show): which locks are held, as the verifier and the mutexes themselves say. */
#include "judge_verifier.h"
#include "libwitness.h"
#include "lock_lines.h"
#include "names.h"

#include <errno.h>
#include <unistd.h>

enum { MORE_HELD = 1 << 16 };

/* Mutexes say who holds them; of other locks only the verifier tells. */
static void put_holders(struct lines *lines)
{
    char name[NAME_ROOM], of[NAME_ROOM];
    int32_t holder;
    put_words(lines, "held now:\n");
    for (uint32_t at = 0; at < LOCKS_ALIVE; at++) {
        const struct lock *lock = lock_held_from(&at, &holder);
        if (!lock)
            break;
        name_any(name, of, lock);
        put_words(lines, " \"%s\" by thread %d\n", name, (int)holder);
    }
}

/* The verifier's own text. */
static void put_orders(struct lines *lines, struct wit_place *place)
{
    char none[1];
    put_words(lines, "orders:\n");
    size_t room = lines->length < lines->room ? lines->room - lines->length : 0;
    int64_t length = wit_graph_text(place, room > 0 ? lines->to + lines->length : none, room);
    lines->length += length > 0 ? (size_t)length : 0;
}

static void collect(struct lines *lines)
{
    struct wit_place *place = judge_verifier();
    put_holders(lines);
    if (!place)
        return;
    for (uint16_t seat = 1; seat <= SEATS; seat++)
        put_seat(lines, place, seat, "");
    put_words(lines, "free chunks: %ld\n", (long)wit_free_chunks(place));
    put_orders(lines, place);
}

/*
 * All of it, once it is known how long that is; no text without memory. Mutexes are taken meanwhile: some more may be held at
 * the second look.
 */
static struct lines collected(void)
{
    struct lines counted = {NULL, 0, 0};
    collect(&counted);
    size_t room = counted.length + MORE_HELD;
    struct rattle_memory memory = rattle_alloc(room, 1);
    struct lines lines = {memory.ok ? memory.at : NULL, memory.ok ? room : 0, 0};
    if (!memory.ok)
        return lines;
    collect(&lines);
    if (lines.length >= room)
        lines.length = room - 1;
    return lines;
}

static void write_out(int file, const struct lines *lines)
{
    for (size_t at = 0; at < lines->length;) {
        ssize_t written = write(file, lines->to + at, lines->length - at);
        if (written <= 0 && !(written < 0 && errno == EINTR))
            return;
        at += written > 0 ? (size_t)written : 0;
    }
}

EXPORT void witness_show(int file)
{
    struct lines lines = {NULL, 0, 0};
    if (!chain_opens(HERE))
        return;
    if (recorder_enters()) {
        lines = collected();
        recorder_leaves();
        write_out(file, &lines);
    }
    if (lines.to && recorder_enters()) {
        rattle_dealloc(lines.to);
        recorder_leaves();
    }
    self.state = OPEN;
}
