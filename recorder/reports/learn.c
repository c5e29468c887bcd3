#include "learn.h"

#include <errno.h>
#include <fcntl.h>
#include <stdlib.h>
#include <string.h>
#include <unistd.h>

#include "allocation.h"
#include "files.h"
#include "orders_file.h"
#include "orders_verdict.h"
#include "output_files.h"
#include "report_files.h"
#include "report_text.h"
#include "usage.h"

/* A run that is told of, with the orders of others. */
struct ending_run {
    struct run *run;
    const char *name; /* the file as it was named */
    char *path;
    struct run_orders orders;
    struct judgement judgement;
    struct found *found; /* what is reported, for the files that are written of it; NULL where none is wanted */
    size_t added;        /* new orders that are against none */
    size_t against;      /* orders of the run that are against others */
    size_t elsewhere;    /* orders against others that the run didn't meet */
};

bool learn_is_wanted(const struct settings *settings)
{
    return is_asked(settings->learn) || is_asked(settings->known);
}

static bool is_there(const char *path)
{
    return access(path, F_OK) == 0 || errno != ENOENT;
}

/* Whether the file and those beside it can be written: errno says why not. */
static bool is_writable(const char *path)
{
    char *beside = say_text("%s.lock", path), *folder = strchr(path, '/') ? file_folder(path) : copy(".");
    int lock = open(beside, O_RDWR | O_CREAT | O_CLOEXEC | O_NOFOLLOW, 0666);
    bool is = lock >= 0 && access(folder, W_OK) == 0 && (!is_there(path) || access(path, W_OK) == 0);
    int why = errno;
    if (lock >= 0)
        close(lock);
    free(beside);
    free(folder);
    errno = why;
    return is;
}

void learn_check(const struct settings *settings)
{
    struct run_orders orders = {0};
    const char *file = is_asked(settings->learn) ? settings->learn : settings->known;
    char *path = orders_file_path(file), *why = NULL;
    bool is_written_to = is_asked(settings->learn) && written_is_special(path);
    if (is_written_to)
        written_check(path);
    else if (is_asked(settings->learn) && !is_writable(path))
        refuse_target("%s can't be written: %s", file, strerror(errno));
    if (!is_written_to && (!is_asked(settings->learn) || is_there(path)))
        why = run_orders_read(&orders, settings->witness, (char *[]){path, NULL}, NULL);
    if (why && orders.has_failed)
        fail("%s", why);
    if (why)
        refuse_target("%s", why);
    run_orders_end(&orders);
    free(path);
}

/* For the files that are written of the run's reports. */
static void take_report(struct ending_run *ending, size_t number)
{
    struct report *report = &ending->judgement.reports.report[number];
    if (!ending->found)
        return;
    ADD(ending->found->reports.report, ending->found->reports.count, ending->found->reports.room) = *report;
    *report = (struct report){0};
}

/* A circle to which the run has an order that closes it, unless the run's own reports tell of it. */
static void tell_report_of(struct ending_run *ending, size_t number)
{
    struct run *run = ending->run;
    const struct run_order *order = &ending->orders.order[ending->judgement.closing[number]];
    char *text = NULL;
    size_t length = 0;
    if (!order->is_met) {
        ending->elsewhere++;
        return;
    }
    ending->against++;
    run->contradicted = run->reported = true;
    FILE *to = order->is_told ? NULL : open_memstream(&text, &length);
    if (!to)
        return;
    report_write(to, &ending->judgement.reports.report[number], false, run->settings.ignore_lines);
    fclose(to);
    run->reports++;
    tell_report(&run->output, text, length);
    free(text);
    take_report(ending, number);
}

/* They are as of a process of the program, which has no trace of its own. */
static void tell_reports_of(struct ending_run *ending)
{
    struct run *run = ending->run;
    struct judgement *judgement = &ending->judgement;
    if (judgement->reports.count > 0 && report_files_are_wanted(&run->settings))
        ending->found = run_reports_add(&run->gathered, run->settings.program, run->process);
    for (size_t i = 0; i < judgement->reports.count; i++)
        tell_report_of(ending, i);
    if (!ending->found)
        return;
    ending->found->notes = judgement->notes;
    judgement->notes = (struct notes){0};
}

/* A line for each new order: `+` for what may be learnt, `!` for what is against others. */
static void tell_new(struct ending_run *ending)
{
    struct run *run = ending->run;
    for (size_t i = 0; i < ending->orders.count; i++) {
        const struct run_order *order = &ending->orders.order[i];
        ending->added += order->is_new && !order->is_against;
        if (!order->is_new || (!order->is_against && is_asked(run->settings.learn)))
            continue;
        char *line = say_text("%c %s%s%s\n", order->is_against ? '!' : '+', order->key, *order->origin ? "\t# " : "",
            order->origin);
        tell(&run->output, line, strlen(line));
        free(line);
    }
}

static void tell_summary(struct ending_run *ending)
{
    struct run *run = ending->run;
    const struct learning *learning = run->learning;
    bool is_learnt = is_asked(run->settings.learn);
    size_t nameless = learning ? learning->nameless.count : 0, long_names = learning ? learning->long_names : 0;
    if (nameless > 0)
        say(&run->output,
            "%s: %zu type%s of this run %s no name that lasts (no debug information?): orders of %s aren't in it",
            ending->name, nameless, nameless == 1 ? "" : "s", nameless == 1 ? "has" : "have",
            nameless == 1 ? "it" : "them");
    if (long_names > 0)
        say(&run->output, "%s: the names of %zu orders are longer than a line may be: they aren't in it", ending->name,
            long_names);
    if (ending->elsewhere > 0)
        say(&run->output, "%s: %zu of its own orders are against others of its own: `orders judge %s` tells which",
            ending->name, ending->elsewhere, ending->name);
    say(&run->output, "%s: %zu new order%s%s, %zu against others", ending->name, ending->added,
        ending->added == 1 ? "" : "s", is_learnt ? " learnt" : "", ending->against);
}

/* It isn't known what the run adds. */
static void tell_failure(struct ending_run *ending, const char *why)
{
    ending->run->unknown = true;
    say(&ending->run->output, "%s: the run isn't judged with other runs", why);
}

static void judge_and_tell(struct ending_run *ending)
{
    struct run *run = ending->run;
    if (is_asked(run->settings.ignore))
        run_orders_ignore(&ending->orders, run->settings.ignore);
    run_orders_judge(&ending->orders, run->settings.witness, &ending->judgement);
    if (ending->judgement.failed) {
        tell_failure(ending, ending->judgement.failed);
        return;
    }
    tell_reports_of(ending);
    tell_new(ending);
    run->has_new = ending->added > 0;
    char *why = is_asked(run->settings.learn) ? orders_file_write(&ending->orders, ending->path) : NULL;
    if (why) {
        run->unknown = true;
        say(&run->output, "%s: nothing is learnt", why);
    } else {
        tell_summary(ending);
    }
    free(why);
}

void learn_tell(struct run *run)
{
    /* Of a program that never loaded the recorder nothing is known: it is no run. */
    if (!learn_is_wanted(&run->settings) || !run->has_started)
        return;
    bool is_learnt = is_asked(run->settings.learn);
    struct ending_run ending = {.run = run, .name = is_learnt ? run->settings.learn : run->settings.known};
    ending.path = orders_file_path(ending.name);
    int lock = -1;
    if (is_learnt && !orders_file_lock(ending.path, &lock)) {
        say(&run->output, "%s.lock can't be written: %s: nothing is learnt", ending.path, strerror(errno));
        run->unknown = true;
    } else {
        /* Other runs may have written to it since this one began. */
        bool has_known = !is_learnt || (is_there(ending.path) && !written_is_special(ending.path));
        char *files[] = {has_known ? ending.path : NULL, NULL};
        char *why =
            run_orders_read(&ending.orders, run->settings.witness, files, run->learning ? &run->learning->met : NULL);
        if (why)
            tell_failure(&ending, why);
        else
            judge_and_tell(&ending);
        free(why);
    }
    if (lock >= 0)
        close(lock);
    judgement_end(&ending.judgement);
    run_orders_end(&ending.orders);
    free(ending.path);
}

void learn_end(struct run *run)
{
    if (!run->learning)
        return;
    run_orders_end(&run->learning->met);
    map_end(&run->learning->nameless);
    free(run->learning);
}
