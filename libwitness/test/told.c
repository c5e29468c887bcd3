/* What is told as numbers and names: reports, the orders that they go against, held locks, and what is asserted. */
#include <string.h>

#include "test.h"

static struct wit_place place;

static const struct wit_lock_at none;

static bool is_lock(const struct wit_lock_at *at, uint32_t lock, uint32_t type, uint32_t class_number, uint32_t line)
{
    return at->lock == lock && at->type_number == type && at->class_number == class_number && at->file == 1
        && at->line == line;
}

static bool is_none(const struct wit_lock_at *at)
{
    return memcmp(at, &none, sizeof none) == 0;
}

static bool is_step(const struct wit_order *step, uint32_t first, uint32_t second, uint32_t origin, uint32_t line)
{
    return step->first == first && step->second == second && step->origin == origin && step->line == line
        && step->file == (origin == WIT_REQUESTED ? 1 : 0);
}

/* No report: what was in the structure is gone, and there is no path. */
static void is_untold(void)
{
    struct wit_report report;
    struct wit_order step;

    memset(&report, 9, sizeof report);
    IS(0, wit_report(&place, &report));
    HOLDS(report.heading == 0 && report.seat == 0);
    HOLDS(is_none(&report.held) && is_none(&report.asked) && is_none(&report.third));
    IS(0, wit_report_path(&place, &step, 1));
}

/* A of type 1 before B of type 2, learnt at line 2; the other seat has B, from line 3, and asks for A at line 4. */
static void try_reversal(void)
{
    struct wit_report report;
    struct wit_order steps[2];

    IS(0, begin(&place));
    is_untold();
    IS(1, mutex(&place, "a", "A"));
    IS(2, lock_of(&place, WIT_RW, "B", 0));
    IS(WIT_PASS, take(&place, 1, 1, 1));
    IS(WIT_ADOPTED, take(&place, 1, 2, 2));
    is_untold();
    IS(WIT_UNLOCKED, release(&place, 1, 2));
    IS(WIT_UNLOCKED, release(&place, 1, 1));
    IS(WIT_PASS, take(&place, 2, 2, 3));
    IS(WIT_REVERSAL, check(&place, 2, 1, true, 4));
    /* These are no calls that the log keeps. */
    IS(2, wit_file(&place, "another", 7));
    IS(WIT_HOLDS, wit_assert(&place, 2, 2, WIT_LA_XLOCKED));
    IS(WIT_REVERSAL, wit_report(&place, &report));
    HOLDS(report.heading == WIT_ORDER && report.seat == 2);
    HOLDS(is_lock(&report.held, 2, 2, WIT_RW, 3));
    HOLDS(is_lock(&report.asked, 1, 1, WIT_SLEEP_MUTEX, 4));
    HOLDS(is_none(&report.third));
    memset(steps, 9, sizeof steps);
    IS(1, wit_report_path(&place, steps, 0));
    HOLDS(steps[0].first == 0x09090909);
    IS(1, wit_report_path(&place, steps, 2));
    HOLDS(is_step(&steps[0], 1, 2, WIT_REQUESTED, 2));
    HOLDS(steps[1].first == 0x09090909);
    IS(WIT_RECORDED, wit_note(&place, 2, 1));
    is_untold();
    wit_free(&place);
}

/* A path of what was learnt and what was defined; and one of a static list. */
static void try_paths(void)
{
    static const struct wit_listed types[] = {{WIT_SLEEP_MUTEX, "A", 1}, {WIT_SLEEP_MUTEX, "B", 1}};
    static const struct wit_list list = {types, 2};
    static const struct wit_sizes sizes = {.seats = 2, .types = 8, .locks = 16, .chunks = 4, .log = 4096};
    struct wit_order steps[3];
    struct wit_report report;
    uint64_t refused;

    IS(0, begin(&place));
    for (int lock = 1; lock <= 3; lock++)
        IS(lock, mutex(&place, lock == 1 ? "A" : lock == 2 ? "B" : "C", ""));
    IS(WIT_PASS, take(&place, 1, 1, 1));
    IS(WIT_ADOPTED, take(&place, 1, 2, 2));
    IS(WIT_ADOPTED, wit_define_order(&place, 1, 2, 3));
    IS(WIT_PASS, take(&place, 2, 3, 3));
    IS(WIT_REVERSAL, check(&place, 2, 1, true, 4));
    memset(steps, 9, sizeof steps);
    IS(2, wit_report_path(&place, steps, 1));
    HOLDS(is_step(&steps[0], 1, 2, WIT_REQUESTED, 2) && steps[1].first == 0x09090909);
    IS(2, wit_report_path(&place, steps, 3));
    HOLDS(is_step(&steps[1], 2, 3, WIT_DEFINED, 0) && steps[2].first == 0x09090909);
    wit_free(&place);

    IS(0, wit_new(&place, &sizes, true, &list, 1, &(struct wit_pair){0}, 0, &refused));
    IS(1, wit_file(&place, "f", 1));
    IS(1, mutex(&place, "b", "B"));
    IS(2, mutex(&place, "a", "A"));
    IS(WIT_PASS, take(&place, 1, 1, 1));
    IS(WIT_REVERSAL, check(&place, 1, 2, true, 2));
    IS(WIT_REVERSAL, wit_report(&place, &report));
    HOLDS(is_lock(&report.held, 1, 2, WIT_SLEEP_MUTEX, 1) && is_lock(&report.asked, 2, 1, WIT_SLEEP_MUTEX, 2));
    IS(1, wit_report_path(&place, steps, 3));
    HOLDS(is_step(&steps[0], 1, 2, WIT_LISTED, 0));
    wit_free(&place);
}

/* A page and the journal are held, and another page is asked for: the first page is the third lock. */
static void try_third(void)
{
    struct wit_report report;

    IS(0, begin(&place));
    IS(1, mutex(&place, "page 1", "page"));
    IS(2, mutex(&place, "journal", ""));
    IS(3, mutex(&place, "page 2", "page"));
    IS(WIT_PASS, take(&place, 1, 1, 10));
    IS(WIT_ADOPTED, take(&place, 1, 2, 11));
    IS(WIT_REVERSAL, check(&place, 1, 3, true, 12));
    IS(WIT_REVERSAL, wit_report(&place, &report));
    HOLDS(report.seat == 1 && is_lock(&report.held, 2, 2, WIT_SLEEP_MUTEX, 11));
    HOLDS(is_lock(&report.asked, 3, 1, WIT_SLEEP_MUTEX, 12) && is_lock(&report.third, 1, 1, WIT_SLEEP_MUTEX, 10));
    wit_free(&place);
}

/* The rules that need no order, two locks of one type, and no chunk that is free. */
static void try_kinds(void)
{
    struct wit_sizes sizes = {.seats = 2, .types = 8, .locks = 16, .chunks = 1, .log = 4096};
    struct wit_report report;
    struct wit_order step;
    uint64_t refused;
    char name[3] = "n1";

    IS(0, begin(&place));
    IS(1, mutex(&place, "m1", "M"));
    IS(2, mutex(&place, "m2", "M"));
    IS(3, lock_of(&place, WIT_SX, "s", 0));
    IS(4, mutex(&place, "Giant", ""));
    IS(WIT_PASS, take(&place, 2, 1, 1));
    IS(WIT_REVERSAL, check(&place, 2, 3, false, 2));
    IS(WIT_REVERSAL, wit_report(&place, &report));
    HOLDS(report.heading == WIT_SLEEPABLE && is_lock(&report.asked, 3, 2, WIT_SX, 2));
    IS(0, wit_report_path(&place, &step, 1));
    IS(WIT_DONE, wit_give_up(&place, 2, 3));
    IS(WIT_REVERSAL, check(&place, 2, 4, true, 3));
    IS(WIT_REVERSAL, wit_report(&place, &report));
    HOLDS(report.heading == WIT_GIANT && is_lock(&report.asked, 4, 3, WIT_SLEEP_MUTEX, 3));
    IS(WIT_DONE, wit_give_up(&place, 2, 4));
    IS(WIT_DUPLICATE, check(&place, 2, 2, true, 4));
    IS(WIT_DUPLICATE, wit_report(&place, &report));
    HOLDS(report.heading == 0 && report.seat == 2 && is_lock(&report.held, 1, 1, WIT_SLEEP_MUTEX, 1));
    HOLDS(is_lock(&report.asked, 2, 1, WIT_SLEEP_MUTEX, 4) && is_none(&report.third));
    IS(0, wit_report_path(&place, &step, 1));
    wit_free(&place);

    IS(0, wit_new(&place, &sizes, false, (struct wit_list[1]){{0}}, 0, (struct wit_pair[1]){{0}}, 0, &refused));
    IS(1, wit_file(&place, "f", 1));
    for (uint32_t lock = 1; lock <= 6; lock++, name[1]++)
        IS(lock, mutex(&place, name, ""));
    for (uint32_t lock = 1; lock <= 5; lock++)
        IS(lock == 1 ? WIT_PASS : WIT_ADOPTED, take(&place, 2, lock, lock));
    IS(0, wit_free_chunks(&place));
    IS(WIT_ADOPTED, check(&place, 2, 6, true, 6));
    IS(WIT_EXHAUSTED, wit_note(&place, 2, 6));
    IS(WIT_EXHAUSTED, wit_report(&place, &report));
    HOLDS(report.heading == 0 && report.seat == 2 && is_none(&report.held) && is_none(&report.asked));
    wit_free(&place);
}

/* The sleep kind first, then the spin kind, each newest first. */
static void try_held(void)
{
    struct wit_held held[3];

    IS(0, begin(&place));
    IS(1, lock_of(&place, WIT_RW, "r", WIT_LOCK_RECURSABLE));
    IS(2, mutex(&place, "m", ""));
    IS(3, lock_of(&place, WIT_SPIN_MUTEX, "s", 0));
    IS(4, wit_free_chunks(&place));
    for (uint32_t line = 1; line <= 2; line++) {
        IS(WIT_PASS, check(&place, 1, 1, false, line));
        IS(WIT_RECORDED, wit_note(&place, 1, 1));
    }
    IS(WIT_ADOPTED, take(&place, 1, 2, 3));
    IS(WIT_PASS, take(&place, 1, 3, 4));
    IS(2, wit_free_chunks(&place));
    memset(held, 9, sizeof held);
    IS(3, wit_held(&place, 1, held, 2));
    HOLDS(held[2].count == 0x09090909);
    HOLDS(is_lock(&held[0].at, 2, 2, WIT_SLEEP_MUTEX, 3) && held[0].exclusive == 1 && held[0].count == 0);
    HOLDS(is_lock(&held[1].at, 1, 1, WIT_RW, 2) && held[1].exclusive == 0 && held[1].count == 1);
    IS(3, wit_held(&place, 1, held, 3));
    HOLDS(is_lock(&held[2].at, 3, 3, WIT_SPIN_MUTEX, 4) && held[2].exclusive == 1);
    IS(0, wit_held(&place, 2, held, 3));
    IS(0, wit_held(&place, 0, held, 3));
    IS(0, wit_held(&place, 3, held, 3));
    wit_free(&place);
}

static void try_names(void)
{
    char byte[2] = "##";

    IS(0, begin(&place));
    IS(1, mutex(&place, "lock", "type"));
    TEXT("lock", wit_lock_name(&place, 1, to, room));
    TEXT("type", wit_type_name(&place, 1, to, room));
    TEXT("f", wit_file_name(&place, 1, to, room));
    IS(4, wit_lock_name(&place, 1, byte, 1));
    HOLDS(memcmp(byte, "l#", 2) == 0);
    for (uint16_t number = 0; number <= 2; number += 2) {
        TEXT("", wit_lock_name(&place, number, to, room));
        TEXT("", wit_type_name(&place, number, to, room));
        TEXT("", wit_file_name(&place, number, to, room));
    }
    wit_free(&place);
}

/* As wit_assert has it of a seat that holds the lock so. */
static void try_asserted(void)
{
    IS(WIT_HOLDS, wit_asserted(false, true, 9, WIT_LA_UNLOCKED));
    IS(WIT_IS_NOT_LOCKED, wit_asserted(false, true, 9, WIT_LA_LOCKED));
    IS(WIT_IS_LOCKED, wit_asserted(true, true, 0, WIT_LA_UNLOCKED));
    IS(WIT_HOLDS, wit_asserted(true, false, 0, WIT_LA_LOCKED | WIT_LA_NOTRECURSED));
    IS(WIT_HOLDS, wit_asserted(true, true, 65535, WIT_LA_XLOCKED | WIT_LA_RECURSED));
    IS(WIT_IS_NOT_EXCLUSIVE, wit_asserted(true, false, 0, WIT_LA_XLOCKED));
    IS(WIT_IS_EXCLUSIVE, wit_asserted(true, true, 0, WIT_LA_SLOCKED));
    IS(WIT_IS_NOT_RECURSED, wit_asserted(true, true, 0, WIT_LA_XLOCKED | WIT_LA_RECURSED));
    IS(WIT_IS_RECURSED, wit_asserted(true, true, 1, WIT_LA_LOCKED | WIT_LA_NOTRECURSED));
    IS(WIT_INVALID, wit_asserted(true, true, 0, WIT_LA_LOCKED | WIT_LA_UNLOCKED));
    IS(WIT_INVALID, wit_asserted(false, false, 0, 255));
    IS(WIT_INVALID, wit_asserted(false, false, 0, 0));
}

void try_told(void)
{
    try_reversal();
    try_paths();
    try_third();
    try_kinds();
    try_held();
    try_names();
    try_asserted();
}
