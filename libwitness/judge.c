/*
 * Gives the verifier each line of the stream while it is written, under the recorder's mutex. Locks and seats have the
 * stream's numbers: both count the lines of `init`. A place is a line of one file, which has the place's number.
 * The head of recorder/runtime/write.c says why the lines are a legal history.
 *
 * The verifier is made at the first line. So a program, or a child of fork, that never asks for a second lock has none.
 */
#include "judge.h"

#include "judge_verifier.h"
#include "lock_lines.h"
#include "names.h"
#include "report_action.h"

#include <string.h>

/*
 * Chunks: as many as the recorder's threads can ever fill. The log: of 48 bytes an entry, for a program with more
 * chains of locks than the recorder knows.
 */
enum { CHUNKS = SEATS * (HELD_MOST / 5 + 1), JUDGED_LOG = 1 << 22 };

/* The file whose lines are places. */
enum { PLACES_FILE = 1 };

static struct wit_place place;
static enum { UNBORN, JUDGES, OVER } state;
static uint32_t numbers_in_type[LOCKS + 1]; /* by the verifier's numbers of locks */

/* News: what the stream has no room for, each told once and counted; and those of enum news. */
_Atomic uint32_t judge_news;
static _Atomic uint32_t told;
static uint64_t missed_count[MISSES];
static int64_t fault, refused_for;
static uint64_t refused_list;

static bool is_wanted;

void judge_wants(void)
{
    is_wanted = true;
}

bool judge_is_wanted(void)
{
    const char *asked = secure_getenv("WITNESS");
    return is_wanted || (asked && strcmp(asked, "1") == 0);
}

void judge_lacks_memory(void)
{
    tell_begins();
    tell_line("there is no memory for the library: nothing is watched");
}

void judge_begins(void)
{
    tell_begins();
    reports_begin();
    lists_begin();
    deadlock_begins();
    if (secure_getenv("WITNESS_PROFILE"))
        tell_line("WITNESS_PROFILE is gone: a request is compared with all locks that its thread holds, always");
}

void judge_has_news(enum news what)
{
    if (!(atomic_load(&told) >> what & 1))
        atomic_fetch_or(&judge_news, 1u << what);
}

/* Nothing is judged from here on: the verifier has refused a line. Its memory goes back. */
static void ends(int64_t answer)
{
    wit_free(&place);
    state = OVER;
    fault = answer;
    judge_has_news(NEWS_OVER);
}

/* Makes the verifier. Where a static list is refused, one without lists. */
static int64_t made_with(const struct lists *lists)
{
    static const struct wit_sizes sizes = {SEATS, TYPES, LOCKS, CHUNKS, JUDGED_LOG};
    uint64_t refused = 0;
    int64_t answer =
        wit_new(&place, &sizes, true, lists->lists, lists->lists_count, lists->pairs, lists->pairs_count, &refused);
    if (answer >= 0 || refused == 0 || answer == WIT_OUT_OF_MEMORY)
        return answer;
    refused_list = refused;
    refused_for = answer;
    judge_has_news(NEWS_LISTS);
    return wit_new(&place, &sizes, true, lists->lists, 0, lists->pairs, lists->pairs_count, &refused);
}

/* With the file that all places are of. */
static int64_t made(void)
{
    int64_t answer = made_with(lists_named());
    return answer < 0 ? answer : wit_file(&place, "places", strlen("places"));
}

static bool is_judged(void)
{
    if (state == OVER)
        return false;
    if (state == UNBORN) {
        int64_t answer = made();
        if (answer < 0)
            ends(answer);
        else
            state = JUDGES;
    }
    return state == JUDGES;
}

struct wit_place *judge_verifier(void)
{
    return is_judged() ? &place : NULL;
}

/* The child's stream begins anew, and so does what is known. */
void judge_forked(void)
{
    atomic_store(&told, 0);
    atomic_store(&judge_news, 0);
    memset(missed_count, 0, sizeof missed_count);
    reports_forked();
    if (state == UNBORN)
        return;
    wit_free(&place);
    names_forgotten();
    orders_forked();
    state = UNBORN;
}

/* What the verifier's last call was answered, which is a report. */
static void keep_report(void)
{
    struct lines counted = {NULL, 0, 0};
    struct wit_report report;
    enum witness_kind kind = wit_report(&place, &report) == WIT_REVERSAL ? WITNESS_REVERSAL : WITNESS_DUPLICATE;
    char *text = put_report(&counted, &place) ? report_kept(kind, counted.length) : NULL;
    if (text && put_report(&(struct lines){text, counted.length + 1, 0}, &place)) {
        report_is_at(report.held.line, report.asked.line);
        return;
    }
    if (text)
        report_dropped();
    ends(WIT_OUT_OF_MEMORY);
}

static void took(int64_t answer)
{
    if (UNLIKELY(answer < 0))
        ends(answer);
    else if (UNLIKELY(answer == WIT_REVERSAL || answer == WIT_DUPLICATE))
        keep_report();
}

uint8_t judged_class(const struct lock *lock)
{
    return lock->type->class == RWLOCK || lock->type->class == TOLD_RWLOCK ? WIT_RW : WIT_SLEEP_MUTEX;
}

uint32_t judged_number(uint32_t lock)
{
    return lock <= LOCKS ? numbers_in_type[lock] : 0;
}

void judge_made(const struct thread *thread, const struct lock *lock)
{
    char name[NAME_ROOM];
    if (!is_judged())
        return;
    uint32_t type = *mark(&lock->type->marks);
    const char *of = *type_name(type) ? type_name(type) : name_type(lock->type, type);
    name_lock(name, lock, of);
    int64_t number = wit_init(&place, (uint16_t)thread->seat, name, strlen(name), of, strlen(of), judged_class(lock),
        (uint8_t)((lock->recursive ? WIT_LOCK_RECURSABLE : 0) | (is_doubled(of) ? WIT_LOCK_DUPOK : 0)));
    if (number < 0) {
        ends(number);
        return;
    }
    numbers_in_type[number] = number_in_type(lock);
    orders_made(thread, atomic_load(&lock->address), (uint32_t)number);
}

void judge_asked(const struct thread *thread, uint32_t lock, uint8_t mode, uint32_t at)
{
    if (!is_judged())
        return;
    deadlock_asked(thread, at);
    took(wit_check(&place, (uint16_t)thread->seat, lock, mode == EXCLUSIVE, WIT_OP_NEWORDER, PLACES_FILE, at));
}

void judge_tried(const struct thread *thread, uint32_t lock, uint8_t mode, uint32_t at)
{
    if (is_judged())
        took(wit_note_try(&place, (uint16_t)thread->seat, lock, mode == EXCLUSIVE, PLACES_FILE, at));
}

void judge_got(const struct thread *thread, uint32_t lock)
{
    if (is_judged())
        took(wit_note(&place, (uint16_t)thread->seat, lock));
}

void judge_gave_up(const struct thread *thread, uint32_t lock)
{
    if (is_judged())
        took(wit_give_up(&place, (uint16_t)thread->seat, lock));
}

void judge_released(const struct thread *thread, uint32_t lock, uint8_t mode)
{
    if (is_judged())
        took(wit_unlock(&place, (uint16_t)thread->seat, lock, mode == EXCLUSIVE));
}

void judge_missed(enum missed what)
{
    missed_count[what]++;
    judge_has_news((enum news)what);
}

/* What the library has no room for, and goes on without. */
static const char *const limits[MISSES] = {
    [MISSED_SEATS] = "more than 256 threads hold locks that are judged at once: the requests of others are passed over",
    [MISSED_TYPES] = "more than 1,023 types of locks: locks of further types are passed over",
    [MISSED_LOCKS] = "more than 65,536 locks: further ones are passed over",
    [MISSED_HELD] = "a thread holds more than 512 locks: those beyond are passed over",
    [MISSED_LOG] = "the log is full: further requests are passed over",
};

static void tell_end(void)
{
    if (fault == WIT_OUT_OF_MEMORY)
        tell_line("no memory for the verifier: nothing is judged from here on");
    else if (fault == -26)
        tell_line("the verifier's log is full: nothing is judged from here on");
    else
        tell_line("the verifier has refused a line (F%d): nothing is judged from here on", (int)-fault);
}

/* Each is told once. */
void judge_tells_news(void)
{
    uint32_t news = atomic_exchange(&judge_news, 0);
    news &= ~atomic_fetch_or(&told, news);
    for (uint32_t what = 0; what < MISSES; what++)
        if (news >> what & 1 && limits[what])
            tell_line("%s", limits[what]);
    if (news >> NEWS_OVER & 1)
        tell_end();
    if (news >> NEWS_LISTS & 1)
        tell_line("list %lu of WITNESS_ORDERS is refused (F%d): no list is known", (unsigned long)refused_list,
            (int)-refused_for);
    if (news >> NEWS_AGAINST & 1)
        tell_line("witness_define_order: the second lock is before the first one already: no order is defined");
    if (news >> NEWS_ONE_TYPE & 1)
        tell_line("witness_define_order: both locks are of one type: no order is defined");
    if (news >> NEWS_UNDEFINED & 1)
        tell_line("witness_define_order: no order can be defined between such locks, or there is no memory for it");
}

/* How much that was. */
void judge_ends(void)
{
    judge_looks();
    for (uint32_t what = 0; what < MISSES; what++)
        if (limits[what] && missed_count[what])
            tell_line("passed over %lu times: %s", (unsigned long)missed_count[what], limits[what]);
}
