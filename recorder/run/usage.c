#include "usage.h"

#include <stdarg.h>
#include <stdio.h>
#include <stdlib.h>
#include <string.h>

#include "allocation.h"
#include "witness.h"

enum { REFUSED = 2, FAILED = 126 };

static const char *speaker = "record";

static const char text[] =
    "recorder/record [OPTIONS] [--] PROGRAM [ARGS..]\n"
    "recorder/record [OPTIONS] --show PID|FILE\n"
    "Runs the program, records its pthread and C11 locks, and shows the lock order reversals on standard error. Its status\n"
    "is the program's own. What is told, and where:\n"
    "  -o FILE        keep the trace; of further processes as FILE.1, FILE.2 ..\n"
    "  --log-file FILE      in place of standard error; %p is the process's number, and each process has a file then\n"
    "  --html FILE    a page with the reports, their sources and pictures of the orders\n"
    "  --sarif FILE   the reports as SARIF 2.1.0, for code scanning\n"
    "  --json FILE    the reports as JSON, for programs\n"
    "  --brief        neither stacks nor threads, nor what is known of single locks\n"
    "  --verbose      stacks of 16 frames, of all that was held; each lock takes longer\n"
    "  --quiet        tell nothing before the program has ended\n"
    "  -v             tell what record itself runs, and keep the recording: for who changes record\n"
    "  --color[=WHEN] headings in colour: always, never, or auto, at a terminal where NO_COLOR isn't set, as without it\n"
    "What counts:\n"
    "  --error-exitcode N   the status, 1 to 255, where there is a report, a circle or an error, or nothing was recorded\n"
    "  --alarms WORDS which reports count for that status, by commas: all, those of the same locks (locks, the default),\n"
    "                 or such by two threads (threads); without those kept apart by a gate, readers, timed, apart; confirmed\n"
    "                 ones alone; and by no-errors nothing is told of errors in the use of locks\n"
    "  --ignore FILE  what is all right: duplicates of a \"TYPE\" by its line, either order by a line \"TYPE\" \"TYPE\"; or\n"
    "                 right orders of libraries, in place of the lists that come with it; the word none: without these\n"
    "  --gen-suppressions   below each report the line for the ignore file that would have it ignored\n"
    "Orders of many runs (orders --help has more):\n"
    "  --learn FILE   judge the run with the orders that the file has of other runs, and add those that contradict nothing\n"
    "  --known FILE   judge the run with them, and tell which it adds: lines + for the file, and ! for what contradicts them\n"
    "A program that hangs, or is to hang:\n"
    "  --confirm[=WORDS]    run the program again for each report, with pauses that make it hang if it can; by commas:\n"
    "                 so many runs for a report, else 3; time=SECONDS for all of them, else 60; from=FILE, the last word:\n"
    "                 by the reports of an earlier --json, and nothing is recorded; noise or noise=MS: no further run,\n"
    "                 but pauses at random in the one that is recorded\n"
    "  --on-deadlock WORD   where threads have waited for one another for a second: tell, kill the process, or exit=N, which\n"
    "                 kills it and is the status\n"
    "  --on-report WORD     what the program does at a report, before it asks for the lock: stop, trap, abort, exit=N,\n"
    "                 or gdb: it runs in gdb, which stands there; libwitness is inside it then\n"
    "What a lock is:\n"
    "  --skip PATTERN functions of that name (* and ? as in names of files) count as part of the lock's own call\n"
    "  --semaphores   those made with 1 that their waiters post are locks, too\n"
    "  --blocks       locks in memory from malloc are told by their offsets in their blocks; malloc and free take longer\n"
    "Without a run:\n"
    "  --show PID|FILE      what there is so far of a recorded program that goes on, or of a recorder's file\n"
    "  --help         this text\n"
    "  --version      the version, and the kit by which the verifier is proved\n"
    "Locks that aren't pthread's (futexes, atomics) are recorded where the program tells of them by the macros of\n";

void usage(const char *here)
{
    fputs(text, stdout);
    printf("%s/witness.h, a header for C and C++ with no library to link.\n", here);
}

char *usage_of(const char *option)
{
    char *begin = say_text("\n  %s", option), *end = begin + strlen(begin);
    const char *at = text;
    while ((at = strstr(at, begin)) && at[end - begin] != ' ' && at[end - begin] != '[')
        at++;
    free(begin);
    if (!at)
        return copy("");
    const char *line = strchr(at + 1, '\n'), *words = strstr(at + 3, "  ");
    /* Between the two stands what the option takes. One blank follows it where there is no room for more. */
    if (!words || words > line) {
        words = strchr(at + 3, ' ') + 1;
        words += strspn(words, "ABCDEFGHIJKLMNOPQRSTUVWXYZ|");
    }
    words += strspn(words, " ");
    return copy_bytes(words, (size_t)(line - words));
}

void usage_version(const char *command)
{
    printf("%s " WITNESS_VERSION "\n" WITNESS_KIT "\n", command);
}

static _Noreturn void leave(int status, const char *format, va_list words, const char *after)
{
    fprintf(stderr, "%s: ", speaker);
    vfprintf(stderr, format, words);
    fputs(after, stderr);
    exit(status);
}

void usage_speaks_as(const char *command)
{
    speaker = command;
}

void refuse(const char *format, ...)
{
    va_list words;
    va_start(words, format);
    char *after = say_text("; %s --help tells how it is used\n", speaker);
    leave(REFUSED, format, words, after);
}

void refuse_target(const char *format, ...)
{
    va_list words;
    va_start(words, format);
    leave(REFUSED, format, words, "\n");
}

void fail(const char *format, ...)
{
    va_list words;
    va_start(words, format);
    leave(FAILED, format, words, "\n");
}
