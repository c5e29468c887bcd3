#include "confirm.h"

#include <stdlib.h>
#include <sys/stat.h>
#include <unistd.h>

#include "allocation.h"
#include "clock.h"
#include "confirm_words.h"
#include "describe.h"
#include "show_run.h"
#include "steered_run.h"
#include "steering_plan.h"

enum { LEAST_SECONDS = 5, TYPES_SHOWN = 64 };

/* What is to be confirmed, and what is left of the time. */
struct confirming {
    struct run *run;
    struct subject *subject;
    size_t subjects;
    long long end_at; /* in microseconds */
    unsigned number;  /* of steered runs so far */
};

bool confirm_is_wanted(const struct settings *settings)
{
    return settings->confirm > 0 && !is_asked(settings->confirm_from);
}

bool confirm_is_any(const struct settings *settings)
{
    return settings->confirm > 0 || is_asked(settings->confirm_from);
}

/* Whether all that hangs are locks of the report's types. */
static bool is_of(const struct hang *hang, const struct subject *subject)
{
    for (size_t i = 0; i < hang->threads; i++)
        if (!has_text(subject->type, subject->types, hang->thread[i].type))
            return false;
    return hang->threads > 0;
}

/* The report that has hung: the one that was steered, or another one. NULL where none has these locks. */
static struct subject *hung(const struct confirming *confirming, struct subject *steered, const struct hang *hang)
{
    if (is_of(hang, steered))
        return steered;
    for (size_t i = 0; i < confirming->subjects; i++)
        if (is_of(hang, &confirming->subject[i]))
            return &confirming->subject[i];
    return NULL;
}

/* A program that goes on for good leaves time for others. */
static double seconds_for_run(const struct confirming *confirming)
{
    double left = (double)(confirming->end_at - microseconds()) / 1e6;
    return left / 2 > LEAST_SECONDS ? left / 2 : left;
}

static struct steered steer(struct confirming *confirming, struct subject *subject, struct counted *counted)
{
    struct run *run = confirming->run;
    struct plan *plan = &subject->planned->plan;
    char *folder = say_text("%s/steered.%u", run->work, ++confirming->number);
    planned_for(subject->planned, ++subject->confirmed->runs);
    struct steered steered = steered_run(run->settings.again, folder, plan, seconds_for_run(confirming));
    counted_adds(counted, plan);
    counted->late += steered.how == STEERED_TOO_LONG;
    free(folder);
    return steered;
}

/* The hang goes to the report that it is of. Where that has one already, it is let go. */
static void keep_hang(struct subject *subject, unsigned run, struct hang *hang)
{
    if (!subject || subject->confirmed->run) {
        hang_end(hang);
        return;
    }
    struct confirmed *confirmed = subject->confirmed;
    hang_end(&confirmed->hang);
    free(confirmed->text);
    confirmed->hang = *hang;
    confirmed->run = hang->is_certain ? run : 0;
    confirmed->runs = confirmed->runs ? confirmed->runs : run;
    confirmed->text = hung_text(&confirmed->hang, run);
}

/* A circle of locks that no report has. */
static void tell_other(struct run *run, const struct hang *hang, unsigned number)
{
    char *text = hung_text(hang, number);
    say(&run->output, "another circle: %s", text);
    free(text);
}

static void try(struct confirming *confirming, struct subject *subject)
{
    struct counted *counted = take(sizeof *counted);
    struct confirmed *confirmed = subject->confirmed;
    while (subject->planned && confirmed->runs < subject->runs && !confirmed->run && microseconds() < confirming->end_at) {
        struct steered steered = steer(confirming, subject, counted);
        struct subject *of = hung(confirming, subject, &steered.hang);
        if (steered.how == STEERED_HUNG && !of)
            tell_other(confirming->run, &steered.hang, confirmed->runs);
        keep_hang(steered.how == STEERED_HUNG ? of : NULL, confirmed->runs, &steered.hang);
    }
    if (!confirmed->text)
        confirmed->text = unconfirmed_text(confirmed->runs, subject->planned, counted);
    free(counted);
}

static void tell_begin(const struct run *run)
{
    struct stat found;
    bool is_file = fstat(STDIN_FILENO, &found) == 0 && S_ISREG(found.st_mode);
    say(&run->output, "the program runs again, for each report up to %d time%s, and is ended where it hangs%s",
        run->settings.confirm, run->settings.confirm == 1 ? "" : "s", is_file ? "" : "; its standard input is /dev/null");
}

void confirm_subjects(struct run *run, struct subject *subject, size_t count)
{
    struct confirming confirming = {run, subject, count, microseconds() + run->settings.confirm_seconds * 1000000LL, 0};
    if (count > 0)
        tell_begin(run);
    for (size_t i = 0; i < count; i++) {
        if (!subject[i].confirmed->run)
            try(&confirming, &subject[i]);
        say(&run->output, "%s: %s", subject[i].about, subject[i].confirmed->text);
        run->confirmed += subject[i].confirmed->run != 0;
    }
}

/* The reports of this run. */

static int compare_reports(const void *left, const void *right)
{
    const struct run_report *one = *(struct run_report *const *)left, *other = *(struct run_report *const *)right;
    if (alarm_has_word(&one->alarm) != alarm_has_word(&other->alarm))
        return alarm_has_word(&one->alarm) ? 1 : -1;
    int difference = alarm_mildness(&one->alarm) - alarm_mildness(&other->alarm);
    return difference ? difference : (one > other) - (one < other);
}

/* Those that can be steered, the worst first: a list of one's own. */
static struct run_report **reports_sorted(struct run_reports *gathered, size_t *count)
{
    struct run_report **sorted = take((gathered->reports + 1) * sizeof *sorted);
    *count = 0;
    for (size_t i = 0; i < gathered->reports; i++) {
        struct run_report *entry = &gathered->report[i];
        enum report_kind kind = entry->report->kind;
        if (!entry->is_ignored && (kind == REPORT_REVERSAL || kind == REPORT_DUPLICATE))
            sorted[(*count)++] = entry;
    }
    qsort(sorted, *count, sizeof *sorted, compare_reports);
    return sorted;
}

/* Its texts but those of the report are its own. */
static struct subject subject_of(const struct settings *settings, struct run_report *entry)
{
    const char **type = take(TYPES_SHOWN * sizeof *type);
    struct planned *planned = take(sizeof *planned);
    struct subject subject = {.planned = planned, .type = type, .about = report_about(entry->report)};
    subject.types = report_types(entry->report, type, TYPES_SHOWN);
    subject.runs = entry->alarm.grade == GRADE_ONE_THREAD ? 1 : (unsigned)settings->confirm;
    subject.confirmed = entry->confirmed = take(sizeof *entry->confirmed);
    if (!planned_of(planned, entry->report, &entry->found->notes)) {
        free(planned);
        subject.planned = NULL;
    }
    return subject;
}

/* Those that are confirmed are the ones that count, where that is wanted. */
static void count_alarms(struct run *run)
{
    struct run_reports *gathered = &run->gathered;
    if (!run->alarms_wanted.confirmed)
        return;
    run->alarms = run->confirmed;
    for (size_t i = 0; i < gathered->reports; i++)
        gathered->report[i].counts &= is_confirmed(gathered->report[i].confirmed);
}

void confirm_reports(struct run *run)
{
    size_t count;
    if (!confirm_is_wanted(&run->settings) || !run->settings.again)
        return;
    run_reports_gather(&run->gathered);
    struct run_report **sorted = reports_sorted(&run->gathered, &count);
    struct subject *subject = take((count + 1) * sizeof *subject);
    for (size_t i = 0; i < count; i++)
        subject[i] = subject_of(&run->settings, sorted[i]);
    confirm_subjects(run, subject, count);
    count_alarms(run);
    for (size_t i = 0; i < count; i++) {
        free(subject[i].planned);
        free((void *)subject[i].type);
        free((void *)subject[i].about);
    }
    free(subject);
    free(sorted);
}
