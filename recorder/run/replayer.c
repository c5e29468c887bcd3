#include "replayer.h"

#include <stdio.h>
#include <stdlib.h>
#include <string.h>

#include "allocation.h"
#include "document.h"
#include "files.h"
#include "show_run.h"
#include "usage.h"
#include "verdict.h"

enum { BAD_USAGE = 2, NOT_RUN = 126 }; /* the least status of what a shell couldn't run */

/* The repository of which this is the script that runs the program; NULL where it is none. A text of one's own. */
static char *repository_of(const char *witness)
{
    char *script = realpath(witness, NULL);
    char *top = script ? file_folder(script) : NULL;
    char *build = top ? say_text("%s/tools/build", top) : NULL;
    bool is = build && strcmp(file_base(witness), "witness") == 0 && file_is_command(build);
    free(script);
    free(build);
    if (is)
        return top;
    free(top);
    return NULL;
}

static bool stands_built(const char *top)
{
    char *build = say_text("%s/tools/build", top);
    const char *words[] = {build, "--is-current", NULL};
    bool is = verdict_status(words, "", false) == 0;
    free(build);
    return is;
}

/* A trial takes minutes, so none is made only to look. */
static void announce_trial(const char *witness, const char *top)
{
    if (!file_is_command("rt"))
        fail("%s isn't built, and there is no rt to try it with: nothing was run", witness);
    fprintf(stderr,
        "record: %s isn't built: a trial of it answers when the program has ended, in one to two minutes a "
        "process, each time, not proved on this machine; make -C %s builds it\n",
        witness, top);
    setenv("WITNESS_TRIAL", "told", 1);
}

/* One that was built of earlier sources is as good for that: it was proved, too. NULL where there is none. */
static char *grader_in(const char *top)
{
    char *built = say_text("%s/crates/witness/out/witness", top);
    if (file_is_command(built))
        return built;
    free(built);
    return NULL;
}

/*
 * The program itself in place of a script that looks each time whether it stands built. Whether only a trial of it can
 * be had.
 */
static bool is_trial(struct settings *settings)
{
    char *top = repository_of(settings->witness);
    bool is = top && !stands_built(top);
    if (is)
        announce_trial(settings->witness, top);
    else if (top)
        settings->witness = say_text("%s/crates/witness/out/witness", top);
    settings->grader = is ? grader_in(top) : settings->witness;
    free(top);
    return is;
}

/* Whether it accepts that word, and that line after a header. */
static bool knows(const char *witness, const char *word, const char *line)
{
    const char *words[] = {witness, word, NULL};
    char *trace = say_text("witness-trace 1 seats 1 types 1 locks 1 chunks 1\n%s", line);
    int status = verdict_status(words, trace, true);
    free(trace);
    return status == 0;
}

void replayer_check(struct settings *settings)
{
    const char *witness = settings->witness, *words[] = {NULL, "findings", NULL};
    if (!file_is_command(witness))
        fail("%s can't be run, and nothing else replays: nothing was run", witness);
    if (is_trial(settings)) {
        settings->quiet = settings->one_by_one = true;
        return;
    }
    witness = *words = settings->witness;
    int status = verdict_status(words, "process 1\n", false);
    if (status >= NOT_RUN)
        fail("%s can't be run: nothing was run", witness);
    if (status == BAD_USAGE)
        fail("%s doesn't know the word findings: nothing was run", witness);
    settings->one_by_one = status != 0;
    if (settings->judge && !knows(witness, "migrate", ""))
        fail("%s doesn't know --judge: nothing was run", witness);
    const char *const documents[][2] = {{settings->html, "html"}, {settings->sarif, "sarif"}, {settings->graph, "dot"}};
    for (size_t i = 0; i < sizeof documents / sizeof *documents; i++)
        if (is_asked(documents[i][0]) && !document_is_known(witness, documents[i][1]))
            fail("%s doesn't know the word %s: nothing was run", witness, documents[i][1]);
}
