#include "show.h"

#include <ctype.h>
#include <dirent.h>
#include <fcntl.h>
#include <signal.h>
#include <stdio.h>
#include <stdlib.h>
#include <string.h>
#include <sys/resource.h>
#include <unistd.h>

#include "allocation.h"
#include "colour.h"
#include "confirm.h"
#include "equal_reports.h"
#include "follow.h"
#include "learn.h"
#include "output_files.h"
#include "report_files.h"
#include "show_run.h"
#include "survivors.h"
#include "tell_process.h"
#include "whole_run.h"
#include "work_folder.h"

static const char empty_trace[] = "witness-trace 1 seats 1 types 1 locks 1 chunks 1\n";

/*
 * A limit on the size of files is meant for the program. A reader that is gone is no reason to end, children are waited
 * for, and files that are opened are none of the first three.
 */
static void prepare(void)
{
    struct rlimit limit;
    struct sigaction children;
    int file = open("/dev/null", O_RDWR);
    while (file >= 0 && file <= STDERR_FILENO)
        file = dup(file);
    if (file > STDERR_FILENO)
        close(file);
    if (getrlimit(RLIMIT_FSIZE, &limit) == 0) {
        limit.rlim_cur = limit.rlim_max;
        setrlimit(RLIMIT_FSIZE, &limit);
    }
    signal(SIGXFSZ, SIG_IGN);
    signal(SIGPIPE, SIG_IGN);
    /* Where it is as it should be it isn't set: that would take a signal away that waits for `launch`. */
    if (sigaction(SIGCHLD, NULL, &children) == 0 && children.sa_handler != SIG_DFL)
        signal(SIGCHLD, SIG_DFL);
}

/*
 * A process makes its file when it begins; one that never wrote leaves it empty, or full of zeroes. What can't be read may
 * have some.
 */
static bool has_lines(const char *folder, const char *name)
{
    char head[16] = "", *path = say_text("%s/%s", folder, name);
    int file = open(path, O_RDONLY | O_NONBLOCK | O_CLOEXEC);
    ssize_t length = file >= 0 ? read(file, head, sizeof head) : -1;
    if (file >= 0)
        close(file);
    free(path);
    for (ssize_t i = 0; i < length; i++)
        if (head[i])
            return true;
    return length < 0;
}

static bool is_going(const struct run *run, long process)
{
    for (size_t i = 0; i < run->goings; i++)
        if (run->going[i] == process)
            return true;
    return false;
}

/* By process, then in the order in which one that executed others had its files. */
static int compare_recordings(const void *one, const void *other)
{
    const char *first = ((const struct recording *)one)->name, *second = ((const struct recording *)other)->name;
    const char *first_dot = strchr(first, '.'), *second_dot = strchr(second, '.');
    long difference = strtol(first, NULL, 10) - strtol(second, NULL, 10);
    if (difference == 0 && first_dot && second_dot)
        difference = strtol(first_dot + 1, NULL, 10) - strtol(second_dot + 1, NULL, 10);
    if (difference == 0)
        difference = strcmp(first, second);
    return (difference > 0) - (difference < 0);
}

/* A parent's number is as a rule below its children's. */
void find_recordings(struct run *run)
{
    DIR *folder = opendir(run->records);
    struct dirent *entry;
    while (folder && (entry = readdir(folder)) != NULL) {
        if (!isdigit((unsigned char)*entry->d_name) || !has_lines(run->records, entry->d_name))
            continue;
        long process = strtol(entry->d_name, NULL, 10);
        ADD(run->recording, run->recordings, run->recording_room) =
            (struct recording){copy(entry->d_name), process, is_going(run, process)};
    }
    if (folder)
        closedir(folder);
    if (run->recordings > 0)
        qsort(run->recording, run->recordings, sizeof *run->recording, compare_recordings);
}

/* Reads what the run has left. Of a program that goes on all may be in the middle of something. */
static void look_around(struct run *run)
{
    const struct ending *ending = run->ending;
    char *started = say_text("%s/started", run->records), *status = say_text("%s/status", run->records);
    char *reserve = say_text("%s/reserve", run->work);
    bool is_whole = (ending->how == HOW_EXIT || ending->how == HOW_SIGNAL) && !run->settings.in_debugger;
    /* The recording may have taken all the room that there was. */
    unlink(reserve);
    run->has_started = access(started, F_OK) == 0;
    status_read(&run->status, status, is_whole && run->has_started ? ending->process : 0,
        run->settings.program ? run->settings.program : "");
    find_going(run);
    find_recordings(run);
    free(started);
    free(status);
    free(reserve);
}

/* Where no process has a trace, there is an empty one. */
static void keep_empty_trace(const struct run *run)
{
    const char *keep = run->settings.keep;
    FILE *to = run->shown == 0 && is_asked(keep) ? written_file(keep) : NULL;
    if (!to)
        return;
    fputs(empty_trace, to);
    fclose(to);
}

static int tell_run(struct run *run)
{
    for (size_t i = 0; i < run->recordings; i++)
        tell_process(run, &run->recording[i]);
    run_has_word(run, 0);
    tell_equal(run);
    keep_empty_trace(run);
    tell_status(run);
    tell_blind(run);
    tell_lines_unknown(run);
    tell_unmatched(run);
    tell_going(run);
    learn_tell(run);
    confirm_reports(run);
    if (run->is_kept)
        say(&run->output, "the recording is kept: %s", run->records);
    return tell_end(run);
}

void forget_recordings(struct run *run)
{
    for (size_t i = 0; i < run->recordings; i++)
        free(run->recording[i].name);
    run->recordings = 0;
}

void run_has_word(struct run *run, long speaker)
{
    if (!run->is_telling) {
        output_begin(&run->output, run->settings.log, run->process);
        run->output.is_coloured = colour_is_wanted(run->settings.colour);
    }
    run->is_telling = true;
    /* While the program runs, others may come later: what was told by then has no numbers. */
    run->output.several = run->recordings > 1 && !output_is_parted(&run->output);
    output_turns_to(&run->output, speaker, run->process);
}

static void end_run(struct run *run)
{
    resolver_end(run->resolver);
    answers_end(&run->answers);
    status_end(&run->status);
    forget_recordings(run);
    follow_end(run);
    equal_end(run);
    learn_end(run);
    for (size_t i = 0; i < run->blinds; i++)
        free((char *)run->blind[i]);
    free(run->recording);
    free(run->going);
    free(run->blind);
    for (size_t i = 0; i < run->libraries; i++)
        free((char *)run->library[i]);
    free(run->library);
    free(run->matched);
    free(run->unclean);
    free(run);
}

struct run *show_begins(const struct settings *settings, const char *work, const char *records)
{
    struct run *run = take(sizeof *run);
    run->settings = *settings;
    run->settings.progress = false;
    run->alarms_wanted = alarms_usual;
    if (is_asked(settings->alarms))
        alarms_words(settings->alarms, &run->alarms_wanted);
    run->work = work;
    run->records = records;
    run->resolver = resolver_new(&run->settings);
    run->answers.is_one_by_one = settings->one_by_one;
    return run;
}

void run_is_watched(struct run *run, struct watched *watched)
{
    run->watched = watched;
}

const struct watched *watched_of(const struct run *run)
{
    return run->watched;
}

void show_leaves(struct run *run)
{
    end_run(run);
}

void show_goes_on(struct run *run, pid_t process)
{
    if (run->process == 0)
        prepare();
    run->process = process;
    follow(run);
}

void show_stops(struct run *run)
{
    if (run->process != 0)
        follow_stops(run);
}

int show_ends(struct run *run, const struct ending *ending)
{
    if (run->process == 0)
        prepare();
    run->process = ending->process;
    run->ending = ending;
    work_folder_begin(run->work);
    if (run->settings.shows_children)
        keep_recording(run);
    look_around(run);
    run_has_word(run, 0);
    report_files_begin(run);
    run->settings.progress = isatty(STDERR_FILENO);
    int status = tell_run(run);
    report_files_write(run);
    end_run(run);
    work_folder_end();
    return status;
}
