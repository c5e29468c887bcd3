/* What seats hold and ask for: circles, warnings, assertions, turns, marks, chunks and levels of watching. */
#include <string.h>

#include "test.h"

static struct wit_place place;

/* Two seats that wait for one another. */
static void try_circle(void)
{
    uint16_t seats[3] = {9, 9, 9};

    IS(0, begin(&place));
    IS(0, wit_circle(&place, seats, 3));
    TEXT("no circle\n", wit_circle_text(&place, to, room));
    IS(1, mutex(&place, "A", ""));
    IS(2, mutex(&place, "B", ""));
    IS(WIT_PASS, take(&place, 1, 1, 1));
    IS(WIT_PASS, take(&place, 2, 2, 2));
    IS(WIT_ADOPTED, check(&place, 1, 2, true, 3));
    IS(WIT_REVERSAL, check(&place, 2, 1, true, 4));
    IS(2, wit_circle(&place, seats, 1));
    HOLDS(seats[0] == 1 && seats[1] == 9);
    IS(2, wit_circle(&place, seats, 3));
    HOLDS(seats[1] == 2 && seats[2] == 9);
    TEXT("circle:\n"
         " seat 1 waits for \"B\" held by seat 2\n"
         " seat 2 waits for \"A\" held by seat 1\n",
        wit_circle_text(&place, to, room));
    IS(WIT_DONE, wit_give_up(&place, 2, 1));
    IS(0, wit_circle(&place, seats, 3));
    wit_free(&place);
}

/* Held locks where there should be none, and what is asserted of them. */
static void try_held(void)
{
    static const char held[] = "exclusive sleep mutex \"m\" (m) r = 0 @ f:2\n";

    IS(0, begin(&place));
    IS(1, lock_of(&place, WIT_SX, "s", 0));
    IS(2, mutex(&place, "m", ""));
    IS(WIT_PASS, take(&place, 1, 1, 1));
    IS(WIT_ADOPTED, take(&place, 1, 2, 2));
    IS(1, wit_warn(&place, 1, 0, WIT_WARN_SLEEPOK));
    IS(0, wit_warn(&place, 1, 2, WIT_WARN_SLEEPOK));
    IS(2, wit_warn(&place, 1, 0, 0));
    TEXT("1 locks held:\nexclusive sleep mutex \"m\" (m) r = 0 @ f:2\n",
        wit_warn_text(&place, 1, 0, WIT_WARN_SLEEPOK, to, room));
    TEXT("", wit_warn_text(&place, 2, 0, 0, to, room));
    IS(WIT_HOLDS, wit_assert(&place, 1, 2, WIT_LA_XLOCKED | WIT_LA_NOTRECURSED));
    TEXT("", wit_assert_text(&place, 1, 2, WIT_LA_XLOCKED | WIT_LA_NOTRECURSED, to, room));
    IS(WIT_IS_LOCKED, wit_assert(&place, 1, 2, WIT_LA_UNLOCKED));
    TEXT("assert \"m\": locked\n", wit_assert_text(&place, 1, 2, WIT_LA_UNLOCKED, to, room));
    IS(WIT_IS_NOT_LOCKED, wit_assert(&place, 2, 2, WIT_LA_LOCKED));
    IS(WIT_IS_EXCLUSIVE, wit_assert(&place, 1, 2, WIT_LA_SLOCKED));
    IS(WIT_IS_NOT_RECURSED, wit_assert(&place, 1, 2, WIT_LA_LOCKED | WIT_LA_RECURSED));
    IS(WIT_INVALID, wit_assert(&place, 1, 2, WIT_LA_UNLOCKED | WIT_LA_LOCKED));
    IS(WIT_UNLOCKED, release(&place, 1, 1));
    TEXT(held, wit_locks_text(&place, 1, to, room));
    TEXT("", wit_locks_text(&place, 2, to, room));
    TEXT("seat 1 holds:\nexclusive sleep mutex \"m\" (m) r = 0 @ f:2\nfree chunks: 3\n",
        wit_all_locks_text(&place, to, room));
    wit_free(&place);
}

/* A held lock is turned, marked, and acquired again. */
static void try_turns(void)
{
    IS(0, begin(&place));
    IS(1, lock_of(&place, WIT_RW, "a", WIT_LOCK_RECURSABLE));
    IS(WIT_PASS, check(&place, 1, 1, false, 1));
    IS(WIT_RECORDED, wit_note(&place, 1, 1));
    IS(WIT_DONE, wit_upgrade(&place, 1, 1));
    IS(-16, wit_upgrade(&place, 1, 1));
    IS(-12, wit_unlock(&place, 1, 1, false));
    IS(-7, check(&place, 1, 1, false, 2));
    IS(WIT_PASS, take(&place, 1, 1, 3));
    IS(WIT_IS_RECURSED, wit_assert(&place, 1, 1, WIT_LA_LOCKED | WIT_LA_NOTRECURSED));
    IS(-19, wit_downgrade(&place, 1, 1));
    IS(WIT_UNLOCKED, release(&place, 1, 1));
    IS(WIT_DONE, wit_downgrade(&place, 1, 1));
    IS(WIT_IS_NOT_EXCLUSIVE, wit_assert(&place, 1, 1, WIT_LA_XLOCKED));
    IS(-18, wit_downgrade(&place, 1, 1));
    IS(-13, release(&place, 1, 1));
    IS(WIT_DONE, wit_norelease(&place, 1, 1));
    IS(-14, wit_unlock(&place, 1, 1, false));
    IS(WIT_DONE, wit_releaseok(&place, 1, 1));
    IS(-23, wit_destroy(&place, 2, 1));
    IS(WIT_UNLOCKED, wit_unlock(&place, 1, 1, false));
    IS(WIT_DONE, wit_destroy(&place, 2, 1));
    IS(-2, wit_destroy(&place, 2, 1));
    wit_free(&place);
}

/* One chunk for two seats: its five places are soon taken, and then nothing is watched. */
static void try_exhausted(void)
{
    struct wit_sizes sizes = {.seats = 2, .types = 8, .locks = 16, .chunks = 1, .log = 4096};
    char name[3] = "n1";
    uint64_t refused;

    IS(0, wit_new(&place, &sizes, false, (struct wit_list[1]){{0}}, 0, (struct wit_pair[1]){{0}}, 0, &refused));
    IS(1, wit_file(&place, "f", 1));
    for (uint32_t lock = 1; lock <= 6; lock++, name[1]++)
        IS(lock, mutex(&place, name, ""));
    for (uint32_t lock = 1; lock <= 5; lock++)
        IS(lock == 1 ? WIT_PASS : WIT_ADOPTED, take(&place, 1, lock, lock));
    IS(WIT_WATCH_ON, wit_watch(&place));
    IS(WIT_ADOPTED, check(&place, 1, 6, true, 6));
    IS(WIT_EXHAUSTED, wit_note(&place, 1, 6));
    TEXT("witness exhausted\n", wit_report_text(&place, to, room));
    IS(WIT_WATCH_OFF, wit_watch(&place));
    IS(WIT_IGNORED, release(&place, 1, 6));
    IS(-30, wit_set_watch(&place, 1, WIT_WATCH_ON));
    IS(WIT_PASS, check(&place, 1, 6, true, 7));
    IS(WIT_UNRECORDED, wit_note(&place, 1, 6));
    IS(WIT_SKIPPED, wit_assert(&place, 1, 6, WIT_LA_LOCKED));
    IS(1, wit_reports(&place));
    wit_free(&place);
}

/* The levels of watching. */
static void try_watch(void)
{
    IS(0, begin(&place));
    IS(1, mutex(&place, "a", ""));
    IS(WIT_NO_SUCH, wit_set_watch(&place, 1, 2));
    IS(WIT_NO_SUCH, wit_set_watch(&place, 1, -2));
    IS(WIT_WATCH_ON, wit_watch(&place));
    IS(WIT_DONE, wit_set_watch(&place, 1, WIT_WATCH_QUIET));
    IS(WIT_WATCH_QUIET, wit_watch(&place));
    IS(WIT_DONE, wit_set_watch(&place, 1, WIT_WATCH_ON));
    IS(WIT_DONE, wit_set_watch(&place, 1, WIT_WATCH_OFF));
    IS(WIT_WATCH_OFF, wit_watch(&place));
    IS(WIT_IGNORED, wit_define_order(&place, 1, 1, 1));
    wit_free(&place);
}

void try_seats(void)
{
    try_circle();
    try_held();
    try_turns();
    try_exhausted();
    try_watch();
}
