/*
 * condensed TURNS: the sets of pairs (../condensed.h) by themselves. First some requests of which the answers are written
 * out here. Then the library is asked so many times at random, questions among them that it refuses. The lines and each bit
 * are compared with what the header says, as it is reckoned here pair by pair. What isn't right is told, and the status is
 * 1 then.
 */
#include "../runtime/condensed.h"

#include <stdio.h>
#include <stdlib.h>
#include <string.h>

enum { MOST_LINKS_HERE = WIT_MOST_LINKS + 1, ROOM = MOST_LINKS_HERE + 2, UNTOUCHED = 0xa5, ALL_EVERY = 512 };

/* Pairs by the type held and the type asked for. */
struct pairs {
    bool told[WIT_TYPES][WIT_TYPES];
    bool alone[WIT_TYPES][WIT_TYPES];
};

struct question {
    struct wit_link links[MOST_LINKS_HERE];
    size_t count;
    uint32_t lock;
    uint16_t type;
    bool waits;
    size_t room;
};

static struct wit_condensed sets;
static struct pairs pairs;
static struct wit_line lines[ROOM];
static long wrong;

static void check(bool is_right, const char *what)
{
    if (is_right)
        return;
    wrong++;
    printf("wrong: %s\n", what);
}

static size_t ask(const struct question *question)
{
    struct wit_line before[ROOM];
    memset(before, UNTOUCHED, sizeof before);
    memset(lines, UNTOUCHED, sizeof lines);
    size_t told = wit_condensed_lines(&sets, question->links, question->count, question->lock, question->type,
        question->waits, before, question->room);
    size_t count = wit_condensed_ask(&sets, question->links, question->count, question->lock, question->type,
        question->waits, lines, question->room);
    check(told == count && memcmp(before, lines, sizeof lines) == 0, "the lines beforehand");
    return count;
}

/* ---- what the header says */

static bool is_question(const struct question *question)
{
    bool is_one = question->count <= WIT_MOST_LINKS && question->room > question->count && question->type < WIT_TYPES;
    for (size_t i = 0; i < question->count; i++)
        is_one = is_one && question->links[i].type < WIT_TYPES;
    return is_one;
}

static bool holds_lock(const struct question *question)
{
    bool holds = false;
    for (size_t i = 0; i < question->count; i++)
        holds = holds || question->links[i].lock == question->lock;
    return holds;
}

static bool is_known(const struct question *question)
{
    if (question->count == 1)
        return pairs.alone[question->links[0].type][question->type];
    bool is_all = true;
    for (size_t i = 0; i < question->count; i++)
        is_all = is_all && pairs.told[question->links[i].type][question->type];
    return is_all;
}

static bool is_wanted(const struct question *question)
{
    return is_question(question) && (question->waits || (!holds_lock(question) && !is_known(question)));
}

static void add_pairs(const struct question *question)
{
    if (holds_lock(question))
        return;
    for (size_t i = 0; i < question->count; i++)
        pairs.told[question->links[i].type][question->type] = true;
    if (question->count == 1)
        pairs.alone[question->links[0].type][question->type] = true;
}

/* Whether the line in that place is this one. */
static bool is_line(size_t at, size_t link, uint8_t kind)
{
    return lines[at].link == link && lines[at].kind == kind;
}

/* Whether the lines are those that are wanted, and the rest of the buffer is as it was. */
static bool are_lines(const struct question *question, size_t count)
{
    size_t at = 0;
    bool is_right = true;
    for (size_t i = 0; is_wanted(question) && i < question->count; i++)
        if (!question->links[i].written)
            is_right = is_line(at++, i, question->links[i].tried ? WIT_LINE_TRIED : WIT_LINE_ASKED_AND_GOT) && is_right;
    if (is_wanted(question))
        is_right = is_line(at++, question->count, WIT_LINE_ASKS) && is_right;
    for (const uint8_t *byte = (const uint8_t *)&lines[at]; byte < (const uint8_t *)&lines[ROOM]; byte++)
        is_right = *byte == UNTOUCHED && is_right;
    return is_right && at == count;
}

static bool are_bits(uint16_t asked)
{
    bool is_right = true;
    for (uint16_t held = 0; held < WIT_TYPES; held++)
        is_right = wit_has_bit(sets.told[asked], held) == pairs.told[held][asked] &&
                   wit_has_bit(sets.alone[asked], held) == pairs.alone[held][asked] && is_right;
    return is_right;
}

static bool are_all_bits(void)
{
    bool is_right = true;
    for (uint16_t asked = 0; asked < WIT_TYPES; asked++)
        is_right = are_bits(asked) && is_right;
    return is_right;
}

/* ---- requests of which the answers are known */

static void try_known(void)
{
    struct question one = {.links = {{.lock = 1, .type = 3}}, .count = 1, .lock = 2, .type = 70, .room = ROOM};
    check(ask(&one) == 2 && is_line(0, 0, WIT_LINE_ASKED_AND_GOT) && is_line(1, 1, WIT_LINE_ASKS), "a first request");
    check(wit_has_bit(sets.told[70], 3) && wit_has_bit(sets.alone[70], 3) && !wit_has_bit(sets.told[3], 70), "its bits");
    check(sets.told[70][0] == 8 && sets.alone[70][0] == 8 && sets.told[70][1] == 0, "where they are");
    check(ask(&one) == 0, "the same again");
    one.waits = true;
    one.links[0].written = true;
    check(ask(&one) == 1 && is_line(0, 1, WIT_LINE_ASKS), "one that waits, under a lock that is written");
    struct question two = {.links = {{.lock = 1, .type = 3}, {.lock = 4, .type = 1023, .tried = true}}, .count = 2,
        .lock = 2, .type = 70, .room = 3};
    check(ask(&two) == 3 && is_line(1, 1, WIT_LINE_TRIED) && is_line(2, 2, WIT_LINE_ASKS), "one under two locks");
    check(wit_has_bit(sets.told[70], 1023) && !wit_has_bit(sets.alone[70], 1023), "its bits");
    struct question other = {.links = {{.lock = 4, .type = 1023}}, .count = 1, .lock = 2, .type = 70, .room = 2};
    check(ask(&other) == 2 && wit_has_bit(sets.alone[70], 1023), "one of these two alone");
    struct question held = {.links = {{.lock = 1, .type = 3}}, .count = 1, .lock = 1, .type = 3, .room = 2};
    check(ask(&held) == 0 && !wit_has_bit(sets.told[3], 3), "one for a lock that is held");
    struct question none = {.lock = 1, .type = 3, .waits = true, .room = 1};
    check(ask(&none) == 1 && is_line(0, 0, WIT_LINE_ASKS), "one that waits under nothing");
    wit_condensed_forked(&sets);
    check(ask(&one) == 1 && ask(&two) == 3, "in another stream");
    wit_condensed_forked(&sets);
    check(are_all_bits(), "empty sets");
}

/* ---- at random */

/* Numbers by a rule. */
static uint32_t next(uint64_t *seed)
{
    *seed = *seed * 6364136223846793005u + 1442695040888963407u;
    return (uint32_t)(*seed >> 33);
}

/* One of a few types mostly, and now and then any, or none. */
static uint16_t some_type(uint64_t *seed)
{
    switch (next(seed) % 64) {
    case 0: return WIT_TYPES + next(seed) % 3;
    case 1: return (uint16_t)next(seed);
    case 2: return WIT_TYPES - 1;
    case 3:
    case 4: return next(seed) % WIT_TYPES;
    default: return next(seed) % 10 * 101;
    }
}

static struct question some_question(uint64_t *seed)
{
    struct question question = {.count = next(seed) % 200 ? next(seed) % 7 : WIT_MOST_LINKS + next(seed) % 2};
    for (size_t i = 0; i < question.count; i++)
        question.links[i] = (struct wit_link){.lock = next(seed) % 40,
            .type = question.count > 7 ? next(seed) % WIT_TYPES : some_type(seed),
            .tried = next(seed) % 4 == 0,
            .written = next(seed) % 2};
    question.lock = next(seed) % 40;
    question.type = some_type(seed);
    question.waits = next(seed) % 8 == 0;
    question.room = next(seed) % 16 ? ROOM : question.count + next(seed) % 2;
    return question;
}

static void try_random(long turns)
{
    uint64_t seed = 1;
    for (long turn = 0; turn < turns; turn++) {
        struct question question = some_question(&seed);
        size_t count = ask(&question);
        check(are_lines(&question, count), "lines");
        if (is_wanted(&question))
            add_pairs(&question);
        check(question.type >= WIT_TYPES || are_bits(question.type), "bits");
        check(turn % ALL_EVERY || are_all_bits(), "bits of other rows");
        if (next(&seed) % 5000 == 0) {
            wit_condensed_forked(&sets);
            memset(&pairs, 0, sizeof pairs);
        }
    }
    check(are_all_bits(), "bits in the end");
}

int main(int count, char **words)
{
    try_known();
    try_random(count > 1 ? atol(words[1]) : 0);
    printf("%ld wrong\n", wrong);
    return wrong != 0;
}
