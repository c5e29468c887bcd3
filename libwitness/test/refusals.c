/* Empty and full places, wrong numbers, buffers that are too small. */
#include <string.h>

#include "test.h"

static struct wit_place place;

/* No call of a verifier that there isn't does anything. */
static void try_empty(void)
{
    struct wit_report report = {.seat = 9};
    struct wit_order step = {.first = 9};
    struct wit_held held = {.count = 9};
    uint16_t number = 9;
    char byte = 9;

    memset(&place, 0, sizeof place);
    wit_free(&place);
    IS(WIT_EMPTY, wit_file(&place, "f", 1));
    IS(WIT_EMPTY, mutex(&place, "a", ""));
    IS(WIT_EMPTY, wit_destroy(&place, 1, 1));
    IS(WIT_EMPTY, check(&place, 1, 1, true, 1));
    IS(WIT_EMPTY, wit_note(&place, 1, 1));
    IS(WIT_EMPTY, wit_give_up(&place, 1, 1));
    IS(WIT_EMPTY, release(&place, 1, 1));
    IS(WIT_EMPTY, wit_note_try(&place, 1, 1, true, 1, 1));
    IS(WIT_EMPTY, wit_upgrade(&place, 1, 1));
    IS(WIT_EMPTY, wit_downgrade(&place, 1, 1));
    IS(WIT_EMPTY, wit_norelease(&place, 1, 1));
    IS(WIT_EMPTY, wit_releaseok(&place, 1, 1));
    IS(WIT_EMPTY, wit_define_order(&place, 1, 1, 2));
    IS(WIT_EMPTY, wit_set_watch(&place, 1, 7));
    IS(WIT_EMPTY, wit_assert(&place, 1, 1, WIT_LA_LOCKED));
    IS(WIT_EMPTY, wit_warn(&place, 1, 0, 0));
    IS(WIT_EMPTY, wit_reports(&place));
    IS(WIT_EMPTY, wit_watch(&place));
    IS(WIT_EMPTY, wit_type_of(&place, 1));
    IS(WIT_EMPTY, wit_report_text(&place, &byte, 1));
    IS(WIT_EMPTY, wit_assert_text(&place, 1, 1, WIT_LA_LOCKED, &byte, 1));
    IS(WIT_EMPTY, wit_warn_text(&place, 1, 0, 0, &byte, 1));
    IS(WIT_EMPTY, wit_locks_text(&place, 1, &byte, 1));
    IS(WIT_EMPTY, wit_all_locks_text(&place, &byte, 1));
    IS(WIT_EMPTY, wit_graph_text(&place, &byte, 1));
    IS(WIT_EMPTY, wit_circle_text(&place, &byte, 1));
    IS(WIT_EMPTY, wit_circle(&place, &number, 1));
    IS(WIT_EMPTY, wit_path(&place, 1, 2, &number, 1));
    IS(WIT_EMPTY, wit_free_chunks(&place));
    IS(WIT_EMPTY, wit_lock_name(&place, 1, &byte, 1));
    IS(WIT_EMPTY, wit_type_name(&place, 1, &byte, 1));
    IS(WIT_EMPTY, wit_file_name(&place, 1, &byte, 1));
    IS(WIT_EMPTY, wit_report(&place, &report));
    IS(WIT_EMPTY, wit_report_path(&place, &step, 1));
    IS(WIT_EMPTY, wit_held(&place, 1, &held, 1));
    HOLDS(byte == 9 && number == 9 && !place.full && place.at == NULL);
    HOLDS(report.seat == 9 && step.first == 9 && held.count == 9);
}

/* Sizes of 0 or too many, and a place that is full. */
static void try_sizes(void)
{
    static const struct wit_sizes most = {256, 1023, 65536, 65536, 16777216};
    struct wit_list none = {0};
    struct wit_pair pair = {0};
    uint64_t refused;

    for (int i = 0; i < 10; i++) {
        struct wit_sizes sizes = most;
        uint32_t *size = (uint32_t *[]){&sizes.seats, &sizes.types, &sizes.locks, &sizes.chunks, &sizes.log}[i / 2];

        *size = i % 2 ? 0 : *size + 1;
        refused = 99;
        IS(WIT_NO_SUCH, wit_new(&place, &sizes, false, &none, 0, &pair, 0, &refused));
        IS(0, (int64_t)refused);
        HOLDS(!place.full && place.at == NULL);
    }
    most_bytes = 0;
    IS(0, wit_new(&place, &most, true, &none, 0, &pair, 0, &refused));
    HOLDS(most_bytes <= room_of(&most));
    TEXT("", wit_report_text(&place, to, room));
    IS(1, mutex(&place, "a", ""));
    refused = 99;
    IS(WIT_FULL, wit_new(&place, &most, true, &none, 0, &pair, 0, &refused));
    IS(0, (int64_t)refused);
    IS(2, mutex(&place, "b", ""));
    IS(1, wit_type_of(&place, 1));
    wit_free(&place);
    HOLDS(!place.full);
    wit_free(&place);
    IS(WIT_EMPTY, wit_reports(&place));
}

/* Classes that there aren't, and bytes that are no name. */
static void try_names(void)
{
    static const char long_name[65] = "0123456789012345678901234567890123456789012345678901234567890123";

    IS(0, begin(&place));
    IS(WIT_NO_SUCH, lock_of(&place, 4, "a", 0));
    IS(WIT_NO_SUCH, lock_of(&place, 255, "a", 0));
    IS(-29, mutex(&place, "", ""));
    IS(-29, mutex(&place, "\"", ""));
    IS(-29, mutex(&place, "\xff\xfe", ""));
    IS(-29, mutex(&place, "a", "\xc3"));
    IS(-29, wit_init(&place, 1, long_name, 64, "", 0, WIT_RW, 0));
    IS(-1, wit_init(&place, 3, "\xff", 1, "", 0, WIT_RW, 0));
    IS(1, wit_init(&place, 1, long_name, 63, "", 0, WIT_RW, 0));
    IS(-3, wit_init(&place, 1, "b", 1, long_name, 63, WIT_SX, 0));
    IS(-29, wit_file(&place, "", 0));
    IS(-29, wit_file(&place, "\xff", 1));
    IS(-29, wit_file(&place, "a b", 3));
    IS(2, wit_file(&place, "g", 1));
    IS(1, wit_file(&place, "f", 1));
    wit_free(&place);
}

/* Seats, locks and files that there aren't, and calls that don't fit together. */
static void try_numbers(void)
{
    IS(0, begin(&place));
    IS(1, lock_of(&place, WIT_RW, "a", 0));
    for (int seat = 0; seat <= 3; seat += 3) {
        IS(-1, check(&place, (uint16_t)seat, 1, true, 1));
        IS(-1, wit_note(&place, (uint16_t)seat, 1));
        IS(-1, wit_warn(&place, (uint16_t)seat, 0, 0));
        IS(-1, wit_assert_text(&place, (uint16_t)seat, 1, WIT_LA_LOCKED, (char[1]){0}, 1));
        TEXT("", wit_locks_text(&place, (uint16_t)seat, to, room));
    }
    IS(-2, check(&place, 1, 0, true, 1));
    IS(-2, wit_note_try(&place, 1, 2, true, 1, 1));
    IS(-2, wit_assert(&place, 1, 4294967295U, WIT_LA_LOCKED));
    IS(-2, wit_warn(&place, 1, 2, 0));
    IS(-33, wit_check(&place, 1, 1, true, 0, 2, 1));
    IS(-33, wit_check(&place, 1, 1, true, 0, 0, 1));
    IS(-11, release(&place, 1, 1));
    IS(-25, wit_note(&place, 1, 1));
    IS(2, mutex(&place, "m", ""));
    IS(-31, check(&place, 1, 2, false, 1));
    IS(WIT_PASS, check(&place, 1, 2, true, 1));
    IS(-24, check(&place, 1, 2, true, 1));
    IS(-25, wit_give_up(&place, 1, 1));
    IS(WIT_DONE, wit_give_up(&place, 1, 2));
    wit_free(&place);
}

/* Bits of flags that have no name are ignored, but in an assertion. */
static void try_flags(void)
{
    enum { LOCK_BITS = 0xfc, OP_BITS = 0xf8, WARN_BITS = 0xfc };

    IS(0, begin(&place));
    IS(1, wit_init(&place, 1, "a1", 2, "A", 1, WIT_SLEEP_MUTEX, LOCK_BITS));
    IS(2, wit_init(&place, 1, "a2", 2, "A", 1, WIT_SLEEP_MUTEX, LOCK_BITS));
    IS(3, wit_init(&place, 1, "a3", 2, "A", 1, WIT_SLEEP_MUTEX, LOCK_BITS | WIT_LOCK_DUPOK));
    IS(WIT_PASS, wit_check(&place, 1, 1, true, OP_BITS | WIT_OP_NEWORDER, 1, 1));
    IS(WIT_RECORDED, wit_note(&place, 1, 1));
    IS(WIT_PASS, wit_check(&place, 1, 3, true, OP_BITS | WIT_OP_NEWORDER, 1, 2));
    IS(WIT_DONE, wit_give_up(&place, 1, 3));
    IS(WIT_PASS, wit_check(&place, 1, 2, true, OP_BITS | WIT_OP_NEWORDER | WIT_OP_DUPOK, 1, 3));
    IS(WIT_DONE, wit_give_up(&place, 1, 2));
    IS(WIT_DUPLICATE, wit_check(&place, 1, 2, true, OP_BITS | WIT_OP_NEWORDER, 1, 4));
    IS(WIT_DONE, wit_give_up(&place, 1, 2));
    IS(4, lock_of(&place, WIT_SX, "s", 0));
    IS(WIT_PASS, take(&place, 2, 4, 5));
    IS(1, wit_warn(&place, 2, 0, WARN_BITS));
    IS(0, wit_warn(&place, 2, 0, WARN_BITS | WIT_WARN_SLEEPOK));
    IS(WIT_HOLDS, wit_assert(&place, 1, 1, WIT_LA_XLOCKED));
    IS(WIT_INVALID, wit_assert(&place, 1, 1, WIT_LA_XLOCKED | 64));
    IS(WIT_INVALID, wit_assert(&place, 1, 1, WIT_LA_XLOCKED | 128));
    wit_free(&place);
}

/* Each room from none to all: the beginning of the text, and nothing after it. */
static void try_rooms(void)
{
    static const char text[] = "seat 1 holds:\nexclusive sleep mutex \"m\" (m) r = 0 @ f:1\nfree chunks: 3\n";
    int64_t length = (int64_t)strlen(text);
    char to[sizeof text + 1];

    IS(0, begin(&place));
    IS(1, mutex(&place, "m", ""));
    IS(WIT_PASS, take(&place, 1, 1, 1));
    for (size_t room = 0; room < sizeof text + 1; room++) {
        size_t told = room < strlen(text) ? room : strlen(text);

        memset(to, '#', sizeof to);
        IS(length, wit_all_locks_text(&place, to, room));
        HOLDS(memcmp(to, text, told) == 0);
        HOLDS(memchr(to + told, '#', 1) != NULL && to[sizeof to - 1] == '#');
    }
    wit_free(&place);
}

/* Room in the log: it is set aside for the note and the unlock of a check. */
static void try_log(void)
{
    struct wit_sizes sizes = {.seats = 2, .types = 8, .locks = 16, .chunks = 4, .log = 5};
    uint64_t refused;

    IS(0, wit_new(&place, &sizes, false, (struct wit_list[1]){{0}}, 0, (struct wit_pair[1]){{0}}, 0, &refused));
    IS(1, wit_file(&place, "f", 1));
    IS(1, mutex(&place, "a", ""));
    IS(WIT_PASS, check(&place, 1, 1, true, 1));
    IS(WIT_RECORDED, wit_note(&place, 1, 1));
    IS(2, mutex(&place, "b", ""));
    IS(-26, mutex(&place, "c", ""));
    IS(WIT_UNLOCKED, release(&place, 1, 1));
    IS(-26, mutex(&place, "c", ""));
    wit_free(&place);
}

void try_refusals(void)
{
    try_empty();
    try_sizes();
    try_names();
    try_numbers();
    try_flags();
    try_rooms();
    try_log();
}
