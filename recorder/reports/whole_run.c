#include "whole_run.h"

#include <stdlib.h>
#include <string.h>

#include "ignore_file.h"
#include "libdw.h"
#include "missed_calls.h"
#include "resolve.h"
#include "texts.h"

static const char little_room[] = "a full disk, or a limit on the size of files";

static void tell_failed(struct run *run, const struct failed *failed)
{
    char *missed = missed_of(failed->counts);
    if (*missed) {
        run->partly = true;
        run->output.speaker = failed->process;
        say(&run->output, "%s (process %ld): not recorded: %s", failed->name, failed->process, missed);
        run->output.speaker = 0;
    }
    free(missed);
}

static void tell_bare(struct run *run, const struct bare *bare)
{
    const char *why =
        bare->lacks_memory ? "there was too little memory for the recorder (a limit on addresses?)" : no_recorder;
    if (bare->process == run->ending->process && is_asked(run->settings.misfit))
        why = run->settings.misfit;
    run->partly = true;
    if (bare->times == 1) {
        run->output.speaker = bare->process;
        say(&run->output, "nothing is known of %s (process %ld): %s", bare->name, bare->process, why);
        run->output.speaker = 0;
    } else {
        say(&run->output, "nothing is known of %s, which was started %lu times: %s", bare->name, bare->times, why);
    }
}

void tell_status(struct run *run)
{
    const struct status *status = &run->status;
    if (status->is_short) {
        run->partly = true;
        say(&run->output, "there was little room for the recording: %s",
            is_asked(run->settings.little) ? run->settings.little : little_room);
        return;
    }
    for (size_t i = 0; i < status->failures; i++)
        tell_failed(run, &status->failed[i]);
    if (status->is_full) {
        run->partly = true;
        say(&run->output,
            "there were more than 3,072 processes: of the rest it isn't known what they loaded, and what failed");
    }
    for (size_t i = 0; i < status->bares; i++)
        tell_bare(run, &status->bare[i]);
}

void tell_blind(struct run *run)
{
    if (run->blinds > 0)
        qsort(run->blind, run->blinds, sizeof *run->blind, compare_texts);
    for (size_t i = 0; i < run->blinds; i++)
        say(&run->output,
            "%s has functions without unwind tables (.eh_frame): who called them isn't known, so locks of different use may "
            "have one type",
            run->blind[i]);
}

void tell_lines_unknown(struct run *run)
{
    if (run->recordings > 0 && !libdw_loads())
        say(&run->output, "lines of the sources aren't known: the library libdw isn't there (Debian: libdw1)");
}

static bool is_matched(const struct run *run, unsigned long number)
{
    for (size_t i = 0; i < run->matches; i++)
        if (run->matched[i] == number)
            return true;
    return false;
}

void tell_unmatched(struct run *run)
{
    const struct ignore_file *ignore = resolver_ignore(run->resolver);
    for (size_t i = 0; i < ignore->lines; i++) {
        const struct ignore_line *line = &ignore->line[i];
        if (!is_matched(run, line->number))
            say(&run->output, "%s: line %lu matched nothing: %s", run->settings.ignore, line->number, line->text);
    }
}
