#include <stdlib.h>
#include <string.h>
#include <unistd.h>

#include "allocation.h"
#include "confirm.h"
#include "learn.h"
#include "survivors.h"
#include "unseen_locks.h"
#include "whole_run.h"

enum { TIMEOUT_STATUS = 124, BY_SIGNAL = 128, CONTRADICTED = 1 };

static const char clean[] =
    "clean: no order of these threads' steps can make them wait for one another in a circle, for the locks that were seen "
    "(docs/PROOFS.md)";

/* How the program ended, where that may have kept it from doing more; else an empty text. */
static char *end_of_program(const struct run *run)
{
    const struct ending *ending = run->ending;
    const char *program = run->settings.program ? run->settings.program : "";
    if (ending->how == HOW_SIGNAL)
        return say_text("%s was ended by signal %d", program, ending->number);
    if (ending->how == HOW_EXIT && ending->number == TIMEOUT_STATUS && strcmp(program, "timeout") == 0)
        return copy("the program was ended after its time");
    return copy("");
}

/* What the ignore file has ignored, where nothing is told. */
static char *ignored_by(const struct run *run)
{
    if (run->ignored == 0)
        return copy("");
    char *reports = say_count(run->ignored, "report", "s");
    char *text = say_text(": %s ignores %s", run->settings.ignore, reports);
    free(reports);
    return text;
}

/* The reports of right orders of libraries: `, 2 known of libavcodec.so`, or an empty text. */
static char *known_orders(const struct run *run, const char *before)
{
    char *text = run->known > 0 ? say_text("%s%lu known of", before, run->known) : copy("");
    for (size_t i = 0; *text && i < run->libraries; i++) {
        char *longer = say_text("%s%s %s", text, i == 0 ? "" : i + 1 == run->libraries ? " and" : ",", run->library[i]);
        free(text);
        text = longer;
    }
    return text;
}

/* The text with what is in a library that was opened so that its calls go past the recorder: a text of one's own. */
static char *and_past(char *text, const char *library)
{
    const char *slash = strrchr(library, '/');
    char *longer = say_text("%s%slocks of %s", text, *text ? ", " : "", slash ? slash + 1 : library);
    free(text);
    return longer;
}

/*
 * Whether each process that has told of requests has left a file that says that it is a Python whose program's locks were
 * all told (bindings/python/witness.py). Python itself makes some requests, so no other Python is passed over.
 */
static bool python_tells(const struct run *run)
{
    bool tells = run->recordings > 0;
    for (size_t i = 0; i < run->recordings && tells; i++) {
        char *path = say_text("%s/python.%ld", run->records, run->recording[i].process);
        tells = access(path, F_OK) == 0;
        free(path);
    }
    return tells;
}

/* Where locks weren't seen, the end of the last line; else an empty text. */
static char *not_seen(const struct run *run)
{
    size_t count = 0;
    char **objects = objects_of_run(run, &count);
    char *locks = unseen_locks((const char *const *)objects, count, run->status.has_semaphores, python_tells(run));
    for (size_t i = 0; i < run->status.pasts; i++)
        locks = and_past(locks, run->status.past[i]);
    char *text = *locks ? say_text("; not seen: %s (see record(1))", locks) : copy("");
    for (size_t i = 0; i < count; i++)
        free(objects[i]);
    free(objects);
    free(locks);
    return text;
}

static void tell_reported(struct run *run, const char *so_far, const char *end)
{
    char *reports = say_count(run->reports, "report", "s"), *circles = say_count(run->circles, "circle", "s");
    char *processes = say_count(run->shown, "process", "es"), *errors = say_count(run->errors, "error", "s");
    char *confirmed = confirm_is_wanted(&run->settings) ? say_text(", %lu confirmed", run->confirmed) : copy("");
    char *known = known_orders(run, ", ");
    if (*end)
        say(&run->output, "%s", end);
    if (run->errors)
        say(&run->output, "%s%s%s%s, %s, %s, %s", so_far, reports, known, confirmed, circles, errors, processes);
    else
        say(&run->output, "%s%s%s%s, %s, %s", so_far, reports, known, confirmed, circles, processes);
    free(known);
    free(confirmed);
    free(reports);
    free(circles);
    free(processes);
    free(errors);
}

/* Errors in the use of locks, where nothing else is reported; else an empty text. */
static char *but_errors(const struct run *run)
{
    char *errors = say_count(run->errors, "error", "s");
    char *text = run->errors ? say_text(" but %s", errors) : copy("");
    free(errors);
    return text;
}

/* Where nothing is reported. Whether not all was seen. */
static bool tell_nothing(struct run *run, const char *so_far, const char *end)
{
    const struct output *output = &run->output;
    char *unseen = not_seen(run), *errors = but_errors(run), *known = known_orders(run, "; ");
    bool is_unseen = *unseen;
    if (run->partly || *end || is_unseen) {
        char *without = ignored_by(run);
        say(output, "%snothing in what was recorded%s%s%s%s%s%s", so_far, errors, *end ? ": " : "", end, without, known,
            unseen);
        free(without);
    } else if (run->shown == 0) {
        say(output, "%snothing to report%s: no thread asked for a lock while it held another", so_far, errors);
    } else {
        char *without = ignored_by(run);
        if (run->unclean)
            say(output, "%snot clean: %s", so_far, run->unclean);
        else
            say(output, "%s%s", so_far, clean);
        say(output, "%snothing to report%s%s%s", so_far, errors, without, known);
        free(without);
    }
    free(known);
    free(unseen);
    free(errors);
    return is_unseen;
}

/* The status of `record`: that of its program, unless another was asked for and there is a reason. */
static int status_of(const struct run *run)
{
    const struct ending *ending = run->ending;
    if (run->deadlock_status)
        return run->deadlock_status;
    if (run->settings.error
        && (run->alarms || run->circles || run->errors || run->illegal || run->unknown || run->contradicted))
        return run->settings.error;
    if (run->contradicted || (run->unknown && learn_is_wanted(&run->settings)))
        return CONTRADICTED;
    if (run->has_new && run->settings.new_error && ending->how == HOW_EXIT && ending->number == 0)
        return run->settings.new_error;
    return ending->how == HOW_SIGNAL ? BY_SIGNAL + ending->number : ending->number;
}

int tell_end(struct run *run)
{
    const char *program = run->settings.program ? run->settings.program : "";
    const char *so_far = run->ending->how == HOW_RUNNING || run->goings > 0 ? "so far: " : "";
    char *end = end_of_program(run);
    bool is_nothing_known = false, is_unseen = false;
    if (run->ending->how == HOW_UNSTARTED) {
        is_nothing_known = true;
        say(&run->output, "nothing is known of %s: it wasn't started", program);
    } else if (!run->has_started) {
        is_nothing_known = true;
        say(&run->output, "nothing is known of %s: %s", program,
            is_asked(run->settings.misfit) ? run->settings.misfit : no_recorder);
    } else if (run->unknown || run->reported) {
        tell_reported(run, so_far, end);
    } else {
        is_unseen = tell_nothing(run, so_far, end);
    }
    free(end);
    /* A machine that builds and tests takes no run for a good one of which nothing is known. */
    if (run->shown == 0 && (is_nothing_known || run->partly || is_unseen))
        run->unknown = true;
    return status_of(run);
}
