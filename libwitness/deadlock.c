/*
 * A deadlock that happens, told while it hangs (WITNESS_ON_DEADLOCK). There is no thread of the library's own for that:
 * the one whose request closes the circle waits for a second by a call with a time limit, and then looks again. A
 * request of a known order is written when it has waited for a second, and is looked at then. So each of the circle has
 * waited for a second, or waits for a condition (recorder/runtime/waiters.c), and the last one tells. It goes by the verifier's
 * circle.
 */
#include "judge.h"
#include "judge_verifier.h"
#include "lock_lines.h"
#include "names.h"
#include "report_action.h"

#include <string.h>
#include <unistd.h>

enum { CIRCLE_ROOM = 1 << 16 };

static enum { UNWATCHED, TELLS, KILLS, EXITS } action;
static int exit_status;

/* Who asked last in each seat, and where; and whether the request ends by itself. */
static struct asked {
    long thread;
    uint32_t place;
    bool for_a_time;
} asked[SEATS + 1];

/* Whether the circle that this thread tells ends by itself. */
static __thread bool may_end __attribute__((tls_model("initial-exec")));

void deadlock_begins(void)
{
    const char *word = secure_getenv("WITNESS_ON_DEADLOCK");
    if (!word || !*word)
        return;
    exit_status = status_in(word);
    if (exit_status >= 0)
        action = EXITS;
    else if (strcmp(word, "kill") == 0)
        action = KILLS;
    else
        action = TELLS;
    if (action == TELLS && strcmp(word, "tell") != 0)
        tell_line("WITNESS_ON_DEADLOCK is tell, kill or exit=N up to 255, not %s: a deadlock is told", word);
}

bool judge_watches_waits(void)
{
    return action != UNWATCHED;
}

void deadlock_asked(const struct thread *thread, uint32_t place)
{
    if (action != UNWATCHED)
        asked[thread->seat] = (struct asked){thread_number(thread), place, thread->asks_for_a_time};
}

/* The seats of a circle that the thread's own seat is in; 0 where it is in none. */
static int64_t circle_of(const struct thread *thread, uint16_t seats[SEATS])
{
    struct wit_place *place = judge_verifier();
    int64_t count = place ? wit_circle(place, seats, SEATS) : 0;
    for (int64_t i = 0; i < count; i++)
        if (seats[i] == thread->seat)
            return count;
    return 0;
}

bool judge_sees_circle(const struct request *request)
{
    uint16_t seats[SEATS];
    return action != UNWATCHED && request->pending && circle_of(request->thread, seats) > 0;
}

static void put_waits(struct lines *lines, struct wit_place *place, uint16_t seat)
{
    char text[PLACE_ROOM + 64];
    struct lines waits = {text, sizeof text, 0};
    size_t before = lines->length;
    put_words(&waits, ", thread %ld, waits%s ", asked[seat].thread, asked[seat].for_a_time ? " with a time limit" : "");
    put_place(&waits, asked[seat].place);
    put_words(&waits, " and");
    put_seat(lines, place, seat, text);
    if (lines->length >= lines->room)
        lines->length = before;
}

/* The verifier's words, and then where each of the circle waits and took what it holds. */
static void keep_circle(const uint16_t *seats, int64_t count)
{
    static char text[CIRCLE_ROOM];
    struct wit_place *place = judge_verifier();
    int64_t length = wit_circle_text(place, text, sizeof text);
    if (length < 0 || (size_t)length > sizeof text)
        return;
    struct lines lines = {text, sizeof text, (size_t)length};
    may_end = false;
    for (int64_t i = 0; i < count; i++) {
        put_waits(&lines, place, seats[i]);
        may_end |= asked[seats[i]].for_a_time;
    }
    char *kept = report_kept(WITNESS_DEADLOCK, lines.length);
    if (kept)
        memcpy(kept, text, lines.length);
}

static void keep_itself(const struct request *request)
{
    char name[NAME_ROOM], of[NAME_ROOM], text[2 * NAME_ROOM];
    name_any(name, of, request->lock);
    int length = snprintf(text, sizeof text, "circle:\n a thread waits for \"%s\" that it holds itself\n", name);
    char *kept = report_kept(WITNESS_DEADLOCK, (size_t)length);
    may_end = false;
    if (kept)
        memcpy(kept, text, (size_t)length);
}

void judge_waits(void *argument)
{
    const struct request *request = argument;
    uint16_t seats[SEATS];
    if (action == UNWATCHED)
        return;
    ENTERS_OR return;
    int64_t count = request->again ? 0 : circle_of(request->thread, seats);
    if (request->again_refused)
        keep_itself(request);
    else if (count > 0)
        keep_circle(seats, count);
}

void deadlock_acts(void)
{
    if (may_end)
        return;
    if (action == KILLS)
        kill(getpid(), SIGKILL);
    if (action == EXITS)
        _exit(exit_status);
}
