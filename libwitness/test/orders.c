/* Orders: how they are learnt, given, defined and told, and what breaks them. */
#include "test.h"

static struct wit_place place;

static const char reversal[] =
    "lock order reversal:\n"
    " 1st \"b\" (B, sleep mutex) @ f:3\n"
    " 2nd \"a\" (A, sleep mutex) @ f:4\n"
    "established order:\n"
    " \"A\" -> \"B\" @ f:2\n";

/* One seat takes A and B, the other B, and asks for A. */
static void cross(void)
{
    IS(1, mutex(&place, "a", "A"));
    IS(2, mutex(&place, "b", "B"));
    IS(WIT_PASS, take(&place, 1, 1, 1));
    IS(WIT_ADOPTED, take(&place, 1, 2, 2));
    IS(WIT_UNLOCKED, release(&place, 1, 2));
    IS(WIT_UNLOCKED, release(&place, 1, 1));
    IS(WIT_PASS, take(&place, 2, 2, 3));
    IS(WIT_REVERSAL, check(&place, 2, 1, true, 4));
}

/* What is no call that the log keeps leaves the report as it is. */
static void try_kept(void)
{
    IS(2, wit_file(&place, "another", 7));
    IS(-29, wit_file(&place, "", 0));
    IS(WIT_HOLDS, wit_assert(&place, 2, 2, WIT_LA_XLOCKED));
    IS(-2, wit_assert(&place, 2, 9, WIT_LA_XLOCKED));
    IS(1, wit_warn(&place, 2, 0, 0));
    IS(-1, wit_warn(&place, 9, 0, 0));
    IS(WIT_NO_SUCH, lock_of(&place, 9, "c", 0));
    IS(WIT_NO_SUCH, wit_set_watch(&place, 1, 7));
    TEXT(reversal, wit_report_text(&place, to, room));
}

/* A reversal is reported once. */
static void try_reversal(void)
{
    IS(0, begin(&place));
    TEXT("", wit_report_text(&place, to, room));
    IS(0, wit_reports(&place));
    cross();
    TEXT(reversal, wit_report_text(&place, to, room));
    IS(1, wit_reports(&place));
    try_kept();
    IS(WIT_RECORDED, wit_note(&place, 2, 1));
    TEXT("", wit_report_text(&place, to, room));
    IS(WIT_UNLOCKED, release(&place, 2, 1));
    IS(WIT_UNLOCKED, release(&place, 2, 2));
    IS(WIT_PASS, take(&place, 2, 2, 5));
    IS(WIT_SILENT, check(&place, 2, 1, true, 6));
    TEXT("", wit_report_text(&place, to, room));
    IS(1, wit_reports(&place));
    TEXT("\"A\",\"B\"\n", wit_graph_text(&place, to, room));
    wit_free(&place);
}

/* Two locks of one type, and a lock whose type is that of an older one. */
static void try_one_type(void)
{
    IS(0, begin(&place));
    IS(1, mutex(&place, "a1", "A"));
    IS(2, mutex(&place, "a2", "A"));
    IS(3, mutex(&place, "b", "B"));
    IS(1, wit_type_of(&place, 2));
    IS(2, wit_type_of(&place, 3));
    IS(0, wit_type_of(&place, 4));
    IS(WIT_PASS, take(&place, 1, 1, 1));
    IS(WIT_PASS, wit_check(&place, 1, 2, true, WIT_OP_NEWORDER | WIT_OP_DUPOK, 1, 9));
    IS(WIT_DONE, wit_give_up(&place, 1, 2));
    IS(WIT_DUPLICATE, check(&place, 1, 2, true, 2));
    TEXT("acquiring duplicate lock of same type: \"A\"\n"
         " 1st \"a1\" (A, sleep mutex) @ f:1\n"
         " 2nd \"a2\" (A, sleep mutex) @ f:2\n",
        wit_report_text(&place, to, room));
    IS(WIT_DONE, wit_give_up(&place, 1, 2));
    IS(WIT_SILENT, check(&place, 1, 2, true, 3));
    wit_free(&place);
}

/* A path of two orders, and one that is defined. */
static void try_path(void)
{
    uint16_t types[4] = {9, 9, 9, 9};

    IS(0, begin(&place));
    for (int lock = 1; lock <= 3; lock++)
        IS(lock, mutex(&place, lock == 1 ? "A" : lock == 2 ? "B" : "C", ""));
    IS(WIT_PASS, take(&place, 1, 1, 1));
    IS(WIT_ADOPTED, take(&place, 1, 2, 2));
    IS(WIT_UNLOCKED, release(&place, 1, 1));
    IS(WIT_ADOPTED, take(&place, 1, 3, 4));
    IS(3, wit_path(&place, 1, 3, types, 2));
    HOLDS(types[0] == 1 && types[1] == 2 && types[2] == 9);
    IS(3, wit_path(&place, 1, 3, types, 4));
    HOLDS(types[2] == 3 && types[3] == 9);
    IS(0, wit_path(&place, 3, 1, types, 4));
    IS(0, wit_path(&place, 77, 1, types, 4));
    IS(-20, wit_define_order(&place, 1, 2, 1));
    IS(WIT_KNOWN, wit_define_order(&place, 1, 1, 2));
    IS(WIT_ADOPTED, wit_define_order(&place, 1, 1, 3));
    IS(-21, wit_define_order(&place, 1, 1, 1));
    TEXT("\"A\",\"B\"\n\"A\",\"C\"\n\"B\",\"C\"\n", wit_graph_text(&place, to, room));
    wit_free(&place);
}

static int64_t start(bool all_held, const struct wit_list *lists, size_t count, const struct wit_pair *pair, size_t pairs,
    uint64_t *refused)
{
    struct wit_sizes sizes = {.seats = 2, .types = 8, .locks = 16, .chunks = 4, .log = 4096};

    *refused = 99;
    return wit_new(&place, &sizes, all_held, lists, count, pair, pairs, refused);
}

/* Static lists and blessed pairs. */
static void try_lists(void)
{
    struct wit_listed there[] = {{WIT_SLEEP_MUTEX, "A", 1}, {WIT_SLEEP_MUTEX, "B", 1}};
    struct wit_listed back[] = {{WIT_SLEEP_MUTEX, "B", 1}, {WIT_SLEEP_MUTEX, "A", 1}};
    struct wit_list both[] = {{there, 2}, {back, 2}};
    struct wit_pair pair = {"A", 1, "B", 1}, bad = {"A", 1, "\"", 1};
    uint64_t refused;

    IS(-20, start(false, both, 2, &pair, 0, &refused));
    IS(2, (int64_t)refused);
    IS(-29, start(false, both, 1, &bad, 1, &refused));
    IS(0, (int64_t)refused);
    there[1].class_number = 4;
    IS(WIT_NO_SUCH, start(false, both, 1, &pair, 0, &refused));
    IS(0, (int64_t)refused);
    there[1].class_number = WIT_SPIN_MUTEX;
    IS(-22, start(false, both, 1, &pair, 0, &refused));
    IS(1, (int64_t)refused);
    there[1].class_number = WIT_SLEEP_MUTEX;
    HOLDS(!place.full);
    IS(0, start(false, both, 1, &pair, 1, &refused));
    IS(0, (int64_t)refused);
    TEXT("\"A\",\"B\"\n", wit_graph_text(&place, to, room));
    IS(1, wit_file(&place, "f", 1));
    IS(1, mutex(&place, "b", "B"));
    IS(2, mutex(&place, "a", "A"));
    IS(WIT_PASS, take(&place, 1, 1, 1));
    IS(WIT_SILENT, check(&place, 1, 2, true, 2));
    wit_free(&place);
    IS(0, start(false, both, 1, &pair, 0, &refused));
    IS(1, wit_file(&place, "f", 1));
    IS(1, mutex(&place, "b", "B"));
    IS(2, mutex(&place, "a", "A"));
    IS(WIT_PASS, take(&place, 1, 1, 1));
    IS(WIT_REVERSAL, check(&place, 1, 2, true, 2));
    wit_free(&place);
}

/* Only where all held locks are compared with is the order behind the older one learnt. */
static void try_all_held(void)
{
    struct wit_list none = {0};
    struct wit_pair pair = {0};
    uint64_t refused;

    for (int all_held = 0; all_held < 2; all_held++) {
        IS(0, start(all_held, &none, 0, &pair, 0, &refused));
        IS(1, wit_file(&place, "f", 1));
        for (int lock = 1; lock <= 3; lock++)
            IS(lock, mutex(&place, lock == 1 ? "A" : lock == 2 ? "B" : "C", ""));
        IS(WIT_PASS, take(&place, 1, 1, 1));
        IS(WIT_RECORDED, wit_note_try(&place, 1, 2, true, 1, 2));
        IS(WIT_ADOPTED, take(&place, 1, 3, 3));
        TEXT(all_held ? "\"A\",\"C\"\n\"B\",\"C\"\n" : "\"B\",\"C\"\n", wit_graph_text(&place, to, room));
        wit_free(&place);
    }
}

void try_orders(void)
{
    try_reversal();
    try_one_type();
    try_path();
    try_lists();
    try_all_held();
}
