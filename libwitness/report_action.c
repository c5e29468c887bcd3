/*
 * What happens at a report. It is kept by the thread that asked, under the recorder's mutex. When that is left, and
 * before the real call is made, the thread tells it: the text goes out, the program's function is called, then
 * witness_reported; and then comes what WITNESS_ON_REPORT says. The thread is inside the recorder meanwhile, so no lock
 * that the program's function takes is judged.
 */
#include "report_action.h"

#include "judge.h"
#include "names.h"
#include "verifier.h"

#include <errno.h>
#include <stdlib.h>
#include <string.h>
#include <sys/syscall.h>
#include <unistd.h>

/* Room after the report's own text for the callers. */
enum { CALLERS_ROOM = 4096, CALLERS_MOST = 8 };

enum action { TELLS, STOPS, TRAPS, ABORTS, EXITS };

struct report {
    struct report *next;
    struct witness_report shown;
    size_t length; /* of its own text */
    char held[PLACE_ROOM], asked[PLACE_ROOM];
    char text[];
};

static enum action action;
static int exit_status;
static __thread struct report *kept __attribute__((tls_model("initial-exec")));

/* What the program gave, under a lock of its own. */
static pthread_mutex_t given = PTHREAD_MUTEX_INITIALIZER;
static void (*program_function)(const struct witness_report *, void *);
static void *program_data;

int status_in(const char *word)
{
    char *end;
    if (strncmp(word, "exit=", 5) != 0 || word[5] < '0' || word[5] > '9')
        return -1;
    long status = strtol(word + 5, &end, 10);
    return *end == '\0' && status <= 255 ? (int)status : -1;
}

void reports_begin(void)
{
    static const char *const words[] = {[TELLS] = "tell", [STOPS] = "stop", [TRAPS] = "trap", [ABORTS] = "abort"};
    const char *word = secure_getenv("WITNESS_ON_REPORT");
    if (!word || !*word)
        return;
    for (size_t i = 0; i < sizeof words / sizeof *words; i++)
        if (strcmp(word, words[i]) == 0) {
            action = (enum action)i;
            return;
        }
    exit_status = status_in(word);
    if (exit_status >= 0)
        action = EXITS;
    else
        tell_line("WITNESS_ON_REPORT is tell, stop, trap, abort or exit=N up to 255, not %s: reports are told", word);
}

char *report_kept(enum witness_kind kind, size_t length)
{
    struct report **last = &kept;
    struct rattle_memory memory = rattle_alloc(sizeof(struct report) + length + CALLERS_ROOM, 1);
    if (!memory.ok)
        return NULL;
    struct report *report = memory.at;
    while (*last)
        last = &(*last)->next;
    *last = report;
    report->next = NULL;
    report->length = length;
    report->held[0] = report->asked[0] = report->text[length] = '\0';
    report->shown = (struct witness_report){kind, report->text, report->held, report->asked};
    return report->text;
}

static struct report **last_kept(void)
{
    struct report **last = &kept;
    while ((*last)->next)
        last = &(*last)->next;
    return last;
}

void report_is_at(uint32_t held, uint32_t asked)
{
    struct report *report = *last_kept();
    name_site(report->held, held);
    name_site(report->asked, asked);
}

void report_dropped(void)
{
    struct report **last = last_kept();
    rattle_dealloc(*last);
    *last = NULL;
}

/* Where a thread begins there is nothing of the program. The C library's names for that are mostly not there. */
static bool is_told(const char *function)
{
    return *function && strcmp(function, "_start") != 0 && strncmp(function, "__libc_start", 12) != 0
        && strcmp(function, "start_thread") != 0 && strncmp(function, "__clone", 7) != 0;
}

/* Who asks, and from where: below the report's own text. */
static size_t callers_put(char *to, size_t room, struct caller caller)
{
    uint32_t found[CALLERS_MOST], count = callers(caller, CALLERS_MOST, found);
    char name[THREAD_NAME_ROOM], place[PLACE_ROOM];
    name_thread(name);
    int length = snprintf(to, room, "asked by thread %ld (%s):\n", syscall(SYS_gettid), name);
    for (uint32_t i = 0; i < count && found[i]; i++) {
        if (!is_place_by_name(found[i]) && !is_told(place_function(found[i])))
            continue;
        name_place(place, found[i]);
        length += snprintf(to + length, room - (size_t)length, " %s\n", place);
    }
    return (size_t)length;
}

/* A place for a debugger to stand, and what WITNESS_ON_REPORT=trap does there. */
EXPORT __attribute__((noinline)) void witness_reported(const struct witness_report *report)
{
    __asm__ volatile("" ::"r"(report) : "memory");
}

static void act(void)
{
    int own = (int)getpid();
    switch (action) {
    case TELLS:
        break;
    case STOPS:
        tell_line("process %d stops here: gdb -p %d looks at it, kill -CONT %d lets it go on", own, own, own);
        raise(SIGSTOP);
        break;
    case TRAPS:
        raise(SIGTRAP);
        break;
    case ABORTS:
        abort();
    case EXITS:
        _exit(exit_status);
    }
}

static void call_program(const struct witness_report *report)
{
    real.pthread_mutex_lock(&given);
    void (*function)(const struct witness_report *, void *) = program_function;
    void *data = program_data;
    real.pthread_mutex_unlock(&given);
    if (function)
        function(report, data);
}

struct telling {
    struct report *report;
    struct caller caller;
};

static void tell_text(void *argument)
{
    const struct telling *it = argument;
    struct report *report = it->report;
    size_t length = report->length + callers_put(report->text + report->length, CALLERS_ROOM, it->caller);
    tell(report->text, length);
    report->text[report->length] = '\0';
}

/* The program's function has the program's stack, and its signals. */
static void tell_report(struct report *report, struct caller caller)
{
    struct telling it = {report, caller};
    aside(tell_text, &it);
    call_program(&report->shown);
    witness_reported(&report->shown);
    if (report->shown.kind == WITNESS_DEADLOCK)
        deadlock_acts();
    else
        act();
}

/* Where the program's function leaves by a jump, the reports that follow are told with the thread's next one. */
static COLD void tell_kept(struct caller caller)
{
    int before = errno;
    for (struct report *report; (report = kept) != NULL;) {
        kept = report->next;
        tell_report(report, caller);
        if (recorder_enters()) {
            rattle_dealloc(report);
            recorder_leaves();
        }
    }
    errno = before;
}

void judge_tells(struct caller caller)
{
    if (UNLIKELY(kept != NULL))
        tell_kept(caller);
}

/* Another thread of the parent's may have had it. */
void reports_forked(void)
{
    given = (pthread_mutex_t)PTHREAD_MUTEX_INITIALIZER;
}

EXPORT void witness_on_report(void (*function)(const struct witness_report *, void *), void *data)
{
    start();
    real.pthread_mutex_lock(&given);
    program_function = function;
    program_data = data;
    real.pthread_mutex_unlock(&given);
}
