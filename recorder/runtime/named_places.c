/*
 * Places by name: a file, a line and a function, as a program tells them by witness.h; and the words that are told so.
 *
 * Such a place stands among the others under an address that no code has. The address is made of the numbers of its two
 * words and of its line. So it is found as a return address is. Its callers are those that are told with it; or where its
 * function isn't told, those of the call. Words and places are found without the mutex; neither ever goes.
 */
#include "recorder.h"

#include <string.h>

#include "witness.h"

/* A word's number has 16 bits. What is longer is cut, so that a line of a stream has room for all of it. */
enum { WORDS = 1 << 16, WORDS_BYTES = 1 << 22, FILE_MOST = 200, FUNCTION_MOST = 100, TYPE_MOST = 200 };
#define LINES_MOST ((1u << 30) - 1)
/* Addresses have room, however many places are told. */
#define SITES_MOST (PLACES / 4)

static _Atomic(const char *) *words;
static uint32_t words_met, sites_met;
static char *bytes;
static size_t bytes_used;

/* What is read of a word: of what follows there, nothing. */
struct word {
    const char *from;
    size_t length;
};

bool sites_made(void)
{
    words = table(WORDS * sizeof *words);
    bytes = table(WORDS_BYTES);
    return words && bytes;
}

static struct word head_of(const char *from, size_t most)
{
    return (struct word){from ? from : "", from ? strnlen(from, most) : 0};
}

/* Of a file's name the end says more than its beginning. */
static struct word tail_of(const char *from, size_t most)
{
    size_t length = from ? strlen(from) : 0;
    return (struct word){from ? from + (length > most ? length - most : 0) : "", length > most ? most : length};
}

/* The slot of the word, or a free one for it. The first one stays free: its number stands for no word. */
static uint32_t slot_of(struct word word)
{
    uint64_t hash = word.length;
    for (size_t i = 0; i < word.length; i++)
        hash = (hash ^ (unsigned char)word.from[i]) * 0x9e3779b97f4a7c15u;
    for (uint32_t slot = (uint32_t)(hash >> 40);; slot++) {
        slot = slot % (WORDS - 1) + 1;
        const char *there = atomic_load_explicit(&words[slot], memory_order_acquire);
        if (!there || (strncmp(there, word.from, word.length) == 0 && there[word.length] == '\0'))
            return slot;
    }
}

/* The number of the word, 0 where it wasn't met. */
static uint32_t word_met(struct word word)
{
    uint32_t slot = slot_of(word);
    return atomic_load_explicit(&words[slot], memory_order_acquire) ? slot : 0;
}

/* As word_met, and keeps the word; under the mutex. 0 where there is no room. */
static uint32_t word_kept(struct word word)
{
    uint32_t slot = slot_of(word);
    if (words[slot])
        return slot;
    if (words_met >= WORDS / 4 * 3 || word.length >= WORDS_BYTES - bytes_used)
        return 0;
    char *kept = bytes + bytes_used;
    memcpy(kept, word.from, word.length);
    bytes_used += word.length + 1;
    words_met++;
    atomic_store_explicit(&words[slot], kept, memory_order_release);
    return slot;
}

/* No code has such an address; a place that stands for two has another first bit (places.c). */
static uintptr_t site_pc(uint32_t file, unsigned line, uint32_t function)
{
    return (uintptr_t)1 << 62 | (uintptr_t)file << 46 | (uintptr_t)function << 30 | line;
}

/* Under the mutex. Where there is no room for the place, or for a word of it, its call's address stands for it. */
static uint32_t site_made(struct word file, unsigned line, struct word function)
{
    uint32_t in = sites_met < SITES_MOST ? word_kept(file) : 0, by = in ? word_kept(function) : 0;
    uint32_t number = by ? place_named(site_pc(in, line, by), words[in], line, words[by]) : 0;
    sites_met += number != 0;
    return number;
}

EXPORT unsigned witness_recorder_place(const char *path, unsigned line, const char *name)
{
    struct word file = tail_of(path, FILE_MOST), function = head_of(name, FUNCTION_MOST);
    start();
    if (!words || !bytes || file.length == 0)
        return 0;
    if (line > LINES_MOST)
        line = LINES_MOST;
    uint32_t in = word_met(file), by = word_met(function);
    uint32_t number = in && by ? place_at_pc(site_pc(in, line, by)) : 0;
    if (number)
        return number;
    GOES_INSIDE_OR(HERE) return 0;
    ENTERS_OR return 0;
    return site_made(file, line, function);
}

static bool is_number(unsigned number)
{
    return number != 0 && number <= PLACES && places && place_at(number)->file;
}

bool is_site(struct caller caller)
{
    return caller.pc >> 62 == 1;
}

/* Of this thread's last call that told a place: its return address. */
static __thread uintptr_t told_from __attribute__((tls_model("initial-exec")));

struct caller site_or(unsigned number, struct caller caller)
{
    if (is_number(number)) {
        told_from = caller.pc;
        caller.pc = atomic_load_explicit(&place_at(number)->pc, memory_order_acquire);
    }
    return caller;
}

struct caller site_told_from(struct caller caller)
{
    caller.pc = told_from;
    return caller;
}

static __thread uint32_t above[FRAMES_MOST] __attribute__((tls_model("initial-exec")));
static __thread uint32_t above_count __attribute__((tls_model("initial-exec")));

EXPORT void witness_recorder_callers(const unsigned *told, unsigned count)
{
    above_count = 0;
    for (unsigned i = 0; i < count && above_count < FRAMES_MOST; i++)
        if (is_number(told[i]))
            above[above_count++] = told[i];
}

uint32_t site_callers(uint32_t most, uint32_t *found)
{
    uint32_t count = above_count < most ? above_count : most;
    memcpy(found, above, count * sizeof *found);
    return count;
}

void site_callers_end(void)
{
    above_count = 0;
}

const char *type_label(const char *name)
{
    struct word word = head_of(name, TYPE_MOST);
    uint32_t number = word.length ? word_kept(word) : 0;
    return number ? words[number] : NULL;
}
