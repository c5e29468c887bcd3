/*
 * record FOLDER WORDS..: runs a program and watches what it does with its locks. FOLDER is that of the recorder's sources,
 * and WORDS are those of the command line; recorder/record builds this and becomes it. The recorder's own object stands
 * beside this program. With --orders for the first of the words it is the command `orders` (recorder/orders), and with --tool it
 * is run by a tool of the repository, which may ask for what no user needs (tools/completion, tools/trace-of).
 */
#include <errno.h>
#include <fcntl.h>
#include <stdio.h>
#include <stdlib.h>
#include <string.h>
#include <sys/file.h>
#include <sys/stat.h>
#include <unistd.h>

#include "allocation.h"
#include "child_words.h"
#include "confirm_from.h"
#include "files.h"
#include "interrupts.h"
#include "launch.h"
#include "libwitness_mode.h"
#include "misfit.h"
#include "options.h"
#include "orders_command.h"
#include "orders_words.h"
#include "prepare.h"
#include "print_trace.h"
#include "process_view.h"
#include "replayer.h"
#include "settings_file.h"
#include "show.h"
#include "steered_run.h"
#include "verdict.h"
#include "work_folder.h"

/* One at a time: what replays may have to be built first. Where the folder is another user's, there is no waiting. */
static int lock(const char *built)
{
    char *path = say_text("%s/lock", built);
    int file = open(path, O_WRONLY | O_APPEND | O_CREAT | O_CLOEXEC, 0666);
    free(path);
    while (file >= 0 && flock(file, LOCK_EX) != 0 && errno == EINTR)
        interrupts_heed();
    return file;
}

static void check_replayer(struct settings *settings, const char *built)
{
    int file = built ? lock(built) : -1;
    replayer_check(settings);
    if (file >= 0)
        close(file);
    interrupts_heed();
}

/* When the program's file was last changed; 0 where that isn't known. */
static time_t changed_at(const char *program)
{
    struct stat found;
    char *file = file_of(program);
    time_t time = file && stat(file, &found) == 0 ? found.st_mtime : 0;
    free(file);
    return time;
}

/* What is loaded before the program's libraries, a text of one's own; NULL where the program can't load it. */
static char *preload_of(const struct options *options, const char *built, const struct misfit *misfit)
{
    if (misfit->unloadable)
        return NULL;
    char *recorder = inside_is_wanted(options) ? inside_library(options->here) : say_text("%s/recorder.so", built);
    if (inside_is_wanted(options))
        inside_environment(options);
    if (!options->blocks)
        return recorder;
    char *preload = say_text("%s/blocks.so:%s", built, recorder);
    free(recorder);
    return preload;
}

/* Runs the program by the reports of an earlier run alone. */
static int run_again(struct options *options, const char *built, const char *work)
{
    struct settings *settings = &options->settings;
    check_replayer(settings, built);
    char *records = prepare_records(settings, work);
    struct misfit misfit = misfit_of(*options->program);
    char *preload = preload_of(options, built, &misfit);
    struct again again = {options, preload, options->program};
    settings->again = &again;
    prepare_lets_go();
    interrupts_leave();
    work_folder_begin(work);
    struct run *telling = show_begins(settings, work, records);
    int status = confirm_from(telling);
    show_leaves(telling);
    work_folder_end();
    free(preload);
    free(records);
    return status;
}

/* Runs the program, and tells of it. */
static int run(struct options *options, const char *built, const char *work)
{
    struct settings *settings = &options->settings;
    check_replayer(settings, built);
    char *records = prepare_records(settings, work);
    struct misfit misfit = misfit_of(*options->program);
    settings->misfit = misfit.why;
    settings->built = changed_at(*options->program);
    prepare_environment(options, records);
    if (settings->noise)
        prepare_noise(options, records);
    if (!kept_write(settings, work))
        fail_for_room();
    char *preload = preload_of(options, built, &misfit);
    char **words = options->program;
    if (options->gdb)
        words = inside_debugger(options->here, preload ? preload : "", words);
    struct again again = {options, preload, words};
    settings->again = &again;
    struct run *telling = show_begins(settings, work, records);
    struct ending ending = launch(options->gdb ? NULL : preload, words, telling, !settings->quiet);
    prepare_lets_go();
    prepare_hands_over();
    int status = show_ends(telling, &ending);
    free(preload);
    free(records);
    return status;
}

/* Where the recorder was built for this run alone, its folder has this file; all of the run is there then. */
static bool is_for_once(const char *built)
{
    char *mark = say_text("%s/once", built);
    bool is = access(mark, F_OK) == 0;
    free(mark);
    return is;
}

/* In which folder the file is, from the root on: the program may go to another one. */
static char *folder_of(const char *file)
{
    char *whole = realpath(file, NULL), *folder = file_folder(whole ? whole : file);
    free(whole);
    return folder;
}

/* Whether the trace in the file is clean, in the verifier's words. The status of `record`. */
static int tell_clean(const char *witness, const char *trace)
{
    if (verdict_on(witness, "clean", trace, stdout) < 126 && fflush(stdout) == 0)
        return 0;
    fprintf(stderr, "record: %s: %s can't be read, or %s can't be run\n", trace, trace, witness);
    return 126;
}

int main(int count, char **words)
{
    /* All that is asked for lasts to the end. */
    static struct options options;
    static char *built, *work;
    if (count < 2 || *words[1] != '/') {
        fputs("record: this is begun by the script recorder/record\n", stderr);
        return 2;
    }
    allocation_begins();
    built = folder_of(words[0]);
    if (is_for_once(built))
        prepare_removes(work = built);
    bool is_orders = words[2] && strcmp(words[2], "--orders") == 0, is_tool = words[2] && strcmp(words[2], "--tool") == 0;
    if (is_orders && !orders_run_a_program(words + 3))
        return orders_command(words[1], words + 3);
    struct orders_words as_record = {words + 2 + is_tool, is_tool ? (size_t)count - 3 : 0};
    if (is_orders)
        as_record = orders_words(words + 3);
    options_read(&options, words[1], as_record.word, as_record.untold);
    options.settings.witness = program_called(words[1], "WITNESS", "witness");
    prepare_files(&options.settings);
    if (options.settings.shows_children)
        child_words_wanted();
    if (options.trace) {
        print_trace(&options.settings, options.trace);
        return 0;
    }
    if (options.clean)
        return tell_clean(options.settings.witness, options.clean);
    interrupts_catch();
    if (!work)
        work = prepare_work();
    if (!options.target && options.settings.confirm_from)
        return run_again(&options, built, work);
    if (!options.target)
        return run(&options, built, work);
    check_replayer(&options.settings, NULL);
    return look(&options, work);
}
