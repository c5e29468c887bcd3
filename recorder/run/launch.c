/*
 * What the program leaves running becomes a child of this process, so that it is known. For what ends soon it waits a
 * moment; a server isn't waited for.
 *
 * Signals are blocked and waited for: the program gets those that are sent to `record`, and `record` outlives them, to
 * tell of the program. Those that came before the program began end `record`.
 */
#include "launch.h"

#include <errno.h>
#include <fcntl.h>
#include <signal.h>
#include <stdio.h>
#include <stdlib.h>
#include <string.h>
#include <sys/prctl.h>
#include <sys/wait.h>
#include <time.h>
#include <unistd.h>

#include "allocation.h"
#include "child_words.h"
#include "clock.h"
#include "interrupts.h"
#include "usage.h"

/* How many microseconds what the program has left running is waited for. */
enum { MOMENT = 1000000 };

/* How many nanoseconds lie between two looks at what the program does. */
enum { LOOK = 20000000 };

static const int passed_on[] = {SIGTERM, SIGHUP, SIGINT, SIGQUIT, SIGUSR1, SIGUSR2};

/*
 * Those that are ignored, too: the program is born with them ignored, and may have a handler for them later. A signal that
 * is blocked waits here, ignored or not.
 */
static sigset_t awaited(void)
{
    sigset_t set;
    sigemptyset(&set);
    sigaddset(&set, SIGCHLD);
    for (size_t i = 0; i < sizeof passed_on / sizeof *passed_on; i++)
        sigaddset(&set, passed_on[i]);
    return set;
}

static _Noreturn void become_program(const char *preload, char **words, int told)
{
    const char *before = getenv("LD_PRELOAD");
    if (preload)
        setenv("LD_PRELOAD", before && *before ? say_text("%s:%s", preload, before) : preload, 1);
    execvp(words[0], words);
    int status = errno == ENOENT ? 127 : 126;
    fprintf(stderr, "record: %s: %s\n", words[0], strerror(errno));
    if (write(told, "", 1) != 1)
        status = 126;
    _exit(status);
}

/* Whether the program was never there: then it has told so by a byte before it ended. */
static bool is_unstarted(int told)
{
    char byte;
    ssize_t got = read(told, &byte, 1);
    close(told);
    return got == 1;
}

/* Collects all that has ended. Whether the program is among it. */
static bool has_ended(pid_t program, int *status)
{
    pid_t child;
    int each;
    bool found = false;
    while ((child = waitpid(-1, &each, WNOHANG)) > 0) {
        if (child == program) {
            *status = each;
            found = true;
        }
    }
    return found;
}

/* A signal of the terminal goes to all processes there, the program among them: it isn't passed on once more. */
static int wait_for(pid_t program, const sigset_t *set, struct run *run, bool follows)
{
    const struct timespec look = {0, LOOK};
    for (;;) {
        siginfo_t info;
        int status = 0, number = follows ? sigtimedwait(set, &info, &look) : sigwaitinfo(set, &info);
        if (number == SIGCHLD && has_ended(program, &status))
            return status;
        if (number > 0 && number != SIGCHLD && info.si_code <= 0)
            kill(program, number);
        if (follows)
            show_goes_on(run, program);
    }
}

/* Waits a moment for what the program has left running, or until a signal comes. Whether something goes on. */
static bool goes_on(const sigset_t *set)
{
    long long end = microseconds() + MOMENT;
    for (;;) {
        pid_t child;
        while ((child = waitpid(-1, NULL, WNOHANG)) > 0)
            ;
        if (child < 0)
            return false;
        long long left = end - microseconds();
        struct timespec time = {left / 1000000, left % 1000000 * 1000};
        int number = left > 0 ? sigtimedwait(set, NULL, &time) : 0;
        if (left <= 0 || (number > 0 && number != SIGCHLD))
            return true;
    }
}

static struct ending ending_of(pid_t program, int status, int told)
{
    struct ending ending = {.process = program};
    ending.how = is_unstarted(told) ? HOW_UNSTARTED : WIFSIGNALED(status) ? HOW_SIGNAL : HOW_EXIT;
    ending.number = WIFSIGNALED(status) ? WTERMSIG(status) : WEXITSTATUS(status);
    return ending;
}

/* Begins the program with the signals as they were before `record`; it tells by the pipe where it can't. */
static pid_t begin(const char *preload, char **words, int *told, const sigset_t *before)
{
    struct sigaction children = {.sa_handler = SIG_DFL}, children_before;
    int ends[2];
    sigaction(SIGCHLD, &children, &children_before);
    if (pipe2(ends, O_CLOEXEC) != 0)
        fail("pipe: %s", strerror(errno));
    child_words(preload, (const char *const *)words);
    pid_t program = fork();
    if (program < 0)
        fail("fork: %s", strerror(errno));
    if (program == 0) {
        sigaction(SIGCHLD, &children_before, NULL);
        interrupts_restore();
        sigprocmask(SIG_SETMASK, before, NULL);
        become_program(preload, words, ends[1]);
    }
    close(ends[1]);
    *told = ends[0];
    return program;
}

struct ending launch(const char *preload, char **words, struct run *run, bool follows)
{
    int told;
    sigset_t before, set = awaited();
    sigprocmask(SIG_BLOCK, &set, &before);
    interrupts_leave();
    prctl(PR_SET_CHILD_SUBREAPER, 1);
    pid_t program = begin(preload, words, &told, &before);
    int status = wait_for(program, &set, run, follows);
    struct ending ending = ending_of(program, status, told);
    if (follows)
        show_stops(run);
    ending.left = goes_on(&set);
    prctl(PR_SET_CHILD_SUBREAPER, 0);
    /* What `timeout` sends to all of them may come late: the program's end is told all the same. */
    signal(SIGTERM, SIG_IGN);
    signal(SIGHUP, SIG_IGN);
    sigprocmask(SIG_SETMASK, &before, NULL);
    return ending;
}
