#include "steered_run.h"

#include <errno.h>
#include <fcntl.h>
#include <signal.h>
#include <stdio.h>
#include <stdlib.h>
#include <string.h>
#include <sys/prctl.h>
#include <sys/stat.h>
#include <sys/wait.h>
#include <time.h>
#include <unistd.h>

#include "allocation.h"
#include "child_words.h"
#include "clock.h"
#include "interrupts.h"
#include "prepare.h"
#include "show_run.h"
#include "sleepers.h"
#include "steering_plan.h"
#include "work_folder.h"

enum { LOOK = 10000000, UNPROVED = 1000000, CHILDREN_MOST = 256 };

/* The kernel's number of the thread that has the seat by now. */
static long thread_of(const struct notes *notes, unsigned seat)
{
    const struct event *thread = notes_thread(notes, seat, notes->events);
    return thread ? thread->thread : 0;
}

/* Whom the lock names that the seat waits for; 0 where it names nobody. */
static long owner_for(const struct notes *notes, const struct report_line *waits)
{
    for (size_t i = notes->events; i > 0; i--) {
        const struct event *event = &notes->event[i - 1];
        if (event->kind == EVENT_OWNER && event->seat == waits->seat && !event->is_over)
            return event->name && strcmp(event->name, waits->name) == 0 ? event->thread : 0;
    }
    return 0;
}

/* No lock of the process was ever released by a thread that hadn't taken it. */
static bool hands_nothing_over(const struct process *process)
{
    unsigned long releases;
    return stream_count(&process->stream, "releases", &releases) && releases == 0;
}

static bool is_certain(const struct process *process, const struct report_line *waits)
{
    if (waits->is_behind_readers)
        return hands_nothing_over(process);
    long holder = thread_of(&process->notes, waits->next);
    return waits->next > 0 && holder > 0 && owner_for(&process->notes, waits) == holder;
}

/* What the seat holds that another one of the circle waits for; NULL where that isn't known. */
static const struct report_line *taken_by(const struct report *report, unsigned seat)
{
    for (size_t i = 0; i < report->lines; i++) {
        if (report->line[i].kind != LINE_WAITS || report->line[i].next != seat)
            continue;
        for (size_t at = 0; at < report->lines; at++) {
            const struct report_line *line = &report->line[at];
            if (line->kind == LINE_HOLDS && line->seat == seat && strcmp(line->name, report->line[i].name) == 0)
                return line;
        }
    }
    return NULL;
}

static void add_thread(struct hang *hang, const struct process *process, const struct report *report,
    const struct report_line *waits)
{
    const struct report_line *took = taken_by(report, waits->seat);
    ADD(hang->thread, hang->threads, hang->room) = (struct hung_thread){
        .thread = thread_of(&process->notes, waits->seat),
        .took = took ? copy(took->name) : NULL,
        .took_at = took ? copy(took->site) : NULL,
        .wants = copy(waits->name),
        .wants_at = copy(waits->site),
        .type = copy(notes_lock_type(&process->notes, waits->name)),
    };
    hang->is_certain &= is_certain(process, waits);
}

/* It hung when the last one of its threads asked. */
static struct hang hang_of(const struct process *process)
{
    struct hang hang = {.is_certain = true};
    unsigned long last = 0;
    for (size_t i = 0; i < process->reports.count; i++) {
        const struct report *report = &process->reports.report[i];
        for (size_t at = 0; report->kind == REPORT_CIRCLE && at < report->lines; at++)
            if (report->line[at].kind == LINE_WAITS) {
                add_thread(&hang, process, report, &report->line[at]);
                last = report->line[at].at > last ? report->line[at].at : last;
            }
    }
    hang.seconds = (double)last / 1000;
    hang.is_certain &= hang.threads > 0;
    return hang;
}

bool steered_hangs(struct process *process, long long since, long long now)
{
    struct watched *watched = process->run->watched;
    struct hang hang = hang_of(process);
    if (!hang.is_certain && now - since < UNPROVED) {
        hang_end(&hang);
        return false;
    }
    hang_end(&watched->hang);
    watched->hang = hang;
    watched->has_hung = hang.threads > 0;
    return true;
}

/* Running it. */

/* A file that `record` reads from is read from its beginning; anything else can't be read twice. */
static void take_input(void)
{
    struct stat found;
    bool is_file = fstat(STDIN_FILENO, &found) == 0 && S_ISREG(found.st_mode);
    int input = open(is_file ? "/proc/self/fd/0" : "/dev/null", O_RDONLY);
    if (input > STDIN_FILENO) {
        dup2(input, STDIN_FILENO);
        close(input);
    }
}

static void take_output(const char *path)
{
    int output = open(path, O_WRONLY | O_CREAT | O_APPEND, 0600);
    if (output < 0)
        output = open("/dev/null", O_WRONLY);
    dup2(output, STDOUT_FILENO);
    dup2(output, STDERR_FILENO);
    if (output > STDERR_FILENO)
        close(output);
}

/* A process group of its own, that ends when `record` does. */
static pid_t begin(const char *preload, char **words, const char *output, const char *plan)
{
    child_words(preload, (const char *const *)words);
    pid_t parent = getpid(), program = fork();
    if (program != 0)
        return program;
    sigset_t none;
    sigemptyset(&none);
    setpgid(0, 0);
    prctl(PR_SET_PDEATHSIG, SIGKILL);
    if (getppid() != parent)
        _exit(1);
    interrupts_restore();
    sigprocmask(SIG_SETMASK, &none, NULL);
    take_input();
    take_output(output);
    const char *before = getenv("LD_PRELOAD");
    if (preload)
        setenv("LD_PRELOAD", before && *before ? say_text("%s:%s", preload, before) : preload, 1);
    if (plan)
        setenv("RECORDER_PLAN", plan, 1);
    execvp(words[0], words);
    _exit(errno == ENOENT ? 127 : 126);
}

/* Ends the program, and what it has begun. */
static void end(pid_t program, bool is_reaped)
{
    kill(-program, SIGKILL);
    while (!is_reaped && waitpid(program, NULL, 0) < 0 && errno == EINTR)
        ;
    while (waitpid(-program, NULL, 0) > 0)
        ;
}

/* The children that this process has, as far as the kernel tells. */
struct children {
    pid_t process[CHILDREN_MOST];
    size_t count;
};

static struct children children_now(void)
{
    struct children children = {.count = 0};
    char *path = say_text("/proc/self/task/%d/children", (int)getpid());
    FILE *file = fopen(path, "re");
    free(path);
    while (file && children.count < CHILDREN_MOST && fscanf(file, "%d", &children.process[children.count]) == 1)
        children.count++;
    if (file)
        fclose(file);
    return children;
}

static bool is_among(const struct children *children, pid_t process)
{
    for (size_t i = 0; i < children->count; i++)
        if (children->process[i] == process)
            return true;
    return false;
}

/* What has left the program's process group has come to be this process's child by now. True where some of it has ended. */
static bool end_new(const struct children *before)
{
    bool any = false;
    struct children now = children_now();
    for (size_t i = 0; i < now.count; i++)
        if (!is_among(before, now.process[i]) && kill(now.process[i], SIGKILL) == 0)
            any |= waitpid(now.process[i], NULL, 0) == now.process[i];
    return any;
}

static enum steered_end wait_for(struct run *run, pid_t program, long long end_at, int plan)
{
    const struct timespec look = {0, LOOK};
    for (;;) {
        int status;
        if (waitpid(program, &status, WNOHANG) == program) {
            end(program, true);
            return STEERED_ENDED;
        }
        nanosleep(&look, NULL);
        if (plan >= 0)
            asleep_look(plan);
        if (run)
            show_goes_on(run, program);
        bool has_hung = run && watched_of(run)->has_hung, is_late = microseconds() >= end_at;
        if (has_hung || is_late) {
            end(program, false);
            return has_hung ? STEERED_HUNG : STEERED_TOO_LONG;
        }
    }
}

/* Only what is needed to tell of a circle as the first run would. */
static struct settings settings_of(const struct options *options)
{
    struct settings settings = options->settings;
    settings.keep = settings.log = settings.graph = settings.html = settings.sarif = settings.json = NULL;
    settings.learn = settings.known = settings.on_deadlock = settings.alarms = NULL;
    settings.confirm = 0;
    settings.judge = false;
    return settings;
}

static void run_before(const char *command, const char *output, long long end_at)
{
    char *words[] = {copy("/bin/sh"), copy("-c"), copy(command), NULL};
    pid_t shell = begin(NULL, words, output, NULL);
    if (shell > 0)
        wait_for(NULL, shell, end_at, -1);
    for (size_t i = 0; words[i]; i++)
        free(words[i]);
}

struct steered steered_run(const struct again *again, const char *folder, struct plan *plan, double seconds)
{
    struct steered steered = {.how = STEERED_FAILED};
    long long begun = microseconds(), end_at = begun + (long long)(seconds * 1e6);
    if (mkdir(folder, 0700) != 0)
        return steered;
    struct settings settings = settings_of(again->options);
    char *records = prepare_records(&settings, folder), *path = say_text("%s/plan", records);
    char *output = say_text("%s/output", folder);
    prepare_lets_go();
    prepare_environment(again->options, records);
    if (settings.before)
        run_before(settings.before, output, end_at);
    struct watched watched = {0};
    struct children before = children_now();
    prctl(PR_SET_CHILD_SUBREAPER, 1);
    struct run *run = show_begins(&settings, folder, records);
    run_is_watched(run, &watched);
    pid_t program = plan_write(plan, path) ? begin(again->preload, again->words, output, path) : -1;
    int file = program > 0 ? open(path, O_RDWR | O_CLOEXEC) : -1;
    if (program > 0)
        steered.how = wait_for(run, program, end_at, file);
    if (file >= 0)
        close(file);
    plan_read(plan, path);
    steered.hang = watched.hang;
    show_leaves(run);
    while (end_new(&before))
        ;
    prctl(PR_SET_CHILD_SUBREAPER, 0);
    folder_remove(folder);
    free(output);
    free(path);
    free(records);
    return steered;
}
