/*
 * Each growth is refused in its turn, until none is: the call answers so, all is as it was before it, and made again it
 * answers what it does without a refusal.
 */
#include <stdio.h>
#include <string.h>

#include "test.h"

static struct wit_place place;
static long told; /* refusals, of one turn */

/* What can be seen of the verifier, in a buffer. */
static void look(char *to, size_t room)
{
    char text[3][1024] = {{0}};

    wit_all_locks_text(&place, text[0], sizeof text[0] - 1);
    wit_graph_text(&place, text[1], sizeof text[1] - 1);
    wit_circle_text(&place, text[2], sizeof text[2] - 1);
    snprintf(to, room, "%d %lld %lld %lld %lld\n%s%s%s", place.full, (long long)wit_reports(&place),
        (long long)wit_watch(&place), (long long)wit_type_of(&place, 2), (long long)wit_type_of(&place, 3), text[0],
        text[1], text[2]);
}

static char before[4096], after[4096];

static void ready(void)
{
    look(before, sizeof before);
    growths_count = true;
}

/* Whether the call was refused its growth, and has changed nothing. */
static bool is_again(int64_t answer)
{
    growths_count = false;
    if (answer != WIT_OUT_OF_MEMORY)
        return false;
    told++;
    look(after, sizeof after);
    HOLDS(strcmp(before, after) == 0);
    return true;
}

#define CALL(want, call)                \
    do {                                \
        int64_t answer_ = (ready(), (call)); \
        if (is_again(answer_))          \
            answer_ = (call);           \
        IS((want), answer_);            \
    } while (0)

#define SAYS(want, call)                                                       \
    do {                                                                       \
        char to[1024];                                                         \
        size_t room = sizeof to;                                               \
        int64_t answer_;                                                       \
        memset(to, '#', sizeof to);                                            \
        answer_ = (ready(), (call));                                           \
        if (is_again(answer_)) {                                               \
            HOLDS(to[0] == '#');                                               \
            answer_ = (call);                                                  \
        }                                                                      \
        is_text(__FILE__, __LINE__, answer_, to, (want));                      \
    } while (0)

static const struct wit_sizes sizes = {.seats = 2, .types = 8, .locks = 16, .chunks = 4, .log = 4096};

static int64_t start(uint64_t *refused)
{
    static const struct wit_listed types[] = {{WIT_SLEEP_MUTEX, "A", 1}, {WIT_SX, "S", 1}};
    static const struct wit_list list = {types, 2};
    static const struct wit_pair pair = {"X", 1, "Y", 1};

    return wit_new(&place, &sizes, true, &list, 1, &pair, 1, refused);
}

static void make_all(void)
{
    uint64_t refused = 99;

    CALL(0, start(&refused));
    IS(0, (int64_t)refused);
    CALL(1, wit_file(&place, "f", 1));
    CALL(1, mutex(&place, "a", "A"));
    CALL(2, mutex(&place, "b", "B"));
    CALL(3, lock_of(&place, WIT_RW, "r", 0));
    CALL(4, mutex(&place, "gone", "A"));
    CALL(WIT_DONE, wit_destroy(&place, 1, 4));
}

static void take_all(void)
{
    CALL(WIT_PASS, check(&place, 1, 1, true, 1));
    CALL(WIT_RECORDED, wit_note(&place, 1, 1));
    CALL(WIT_ADOPTED, check(&place, 1, 2, true, 2));
    CALL(WIT_DONE, wit_give_up(&place, 1, 2));
    CALL(WIT_PASS, check(&place, 2, 2, true, 3));
    CALL(WIT_RECORDED, wit_note(&place, 2, 2));
    CALL(WIT_RECORDED, wit_note_try(&place, 1, 3, false, 1, 4));
    CALL(WIT_DONE, wit_upgrade(&place, 1, 3));
    CALL(WIT_DONE, wit_downgrade(&place, 1, 3));
    CALL(WIT_DONE, wit_norelease(&place, 1, 3));
    CALL(WIT_DONE, wit_releaseok(&place, 1, 3));
    CALL(WIT_ADOPTED, wit_define_order(&place, 1, 1, 3));
    CALL(WIT_UNLOCKED, wit_unlock(&place, 1, 3, false));
    CALL(WIT_REVERSAL, check(&place, 2, 1, true, 5));
}

static void tell_all(void)
{
    struct wit_report report;
    struct wit_order step;
    struct wit_held held;
    uint16_t numbers[2];

    SAYS("lock order reversal:\n"
         " 1st \"b\" (B, sleep mutex) @ f:3\n"
         " 2nd \"a\" (A, sleep mutex) @ f:5\n"
         "established order:\n"
         " \"A\" -> \"B\" @ f:2\n",
        wit_report_text(&place, to, room));
    CALL(WIT_REVERSAL, wit_report(&place, &report));
    CALL(1, wit_report_path(&place, &step, 1));
    CALL(1, wit_held(&place, 2, &held, 1));
    SAYS("b", wit_lock_name(&place, report.held.lock, to, room));
    CALL(WIT_PASS, check(&place, 1, 2, true, 6));
    CALL(2, wit_circle(&place, numbers, 2));
    SAYS("circle:\n"
         " seat 1 waits for \"b\" held by seat 2\n"
         " seat 2 waits for \"a\" held by seat 1\n",
        wit_circle_text(&place, to, room));
    CALL(2, wit_path(&place, 1, 3, numbers, 2));
    SAYS("\"A\",\"S\"\n\"A\",\"B\"\n\"A\",\"r\"\n", wit_graph_text(&place, to, room));
    SAYS("exclusive sleep mutex \"a\" (A) r = 0 @ f:1\n", wit_locks_text(&place, 1, to, room));
    SAYS("1 locks held:\nexclusive sleep mutex \"b\" (B) r = 0 @ f:3\n", wit_warn_text(&place, 2, 0, 0, to, room));
    SAYS("assert \"a\": locked\n", wit_assert_text(&place, 1, 1, WIT_LA_UNLOCKED, to, room));
    SAYS("seat 1 holds:\nexclusive sleep mutex \"a\" (A) r = 0 @ f:1\n"
         "seat 2 holds:\nexclusive sleep mutex \"b\" (B) r = 0 @ f:3\nfree chunks: 2\n",
        wit_all_locks_text(&place, to, room));
    CALL(WIT_DONE, wit_give_up(&place, 1, 2));
    CALL(WIT_DONE, wit_give_up(&place, 2, 1));
    CALL(WIT_DONE, wit_set_watch(&place, 1, WIT_WATCH_QUIET));
    CALL(WIT_UNLOCKED, release(&place, 1, 1));
    CALL(WIT_UNLOCKED, release(&place, 2, 2));
}

/* So much memory do the calls of a turn want beside what the verifier begins with: for names, the log and texts. */
enum { CALLS_WANT = 16384 };

/* Numbers are gathered with or without the room that is asked for first: so that refusal isn't told. */
enum { NUMBERS_GATHERED = 2 };

void try_growths(void)
{
    long number = 0, untold = 0;

    do {
        refused_growth = ++number;
        growths = told = most_bytes = 0;
        make_all();
        take_all();
        tell_all();
        wit_free(&place);
        HOLDS(told <= 1);
        HOLDS(most_bytes <= room_of(&sizes) + CALLS_WANT);
        IS(0, blocks_out);
        if (growths >= number)
            untold += 1 - told;
    } while (growths >= number && number < 10000);
    HOLDS(growths < number && number > 50);
    HOLDS(untold <= NUMBERS_GATHERED);
    IS(0, told);
    refused_growth = 0;
}
