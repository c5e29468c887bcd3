#include "libwitness_mode.h"

#include <stdlib.h>
#include <string.h>
#include <unistd.h>

#include "allocation.h"
#include "files.h"
#include "option_words.h"
#include "usage.h"

enum { DEBUGGER_WORDS = 14 };

bool inside_word(const char *word)
{
    static const char *const known[] = {"tell", "stop", "trap", "abort"};
    for (size_t i = 0; i < sizeof known / sizeof *known; i++)
        if (strcmp(word, known[i]) == 0)
            return true;
    return exit_word(word) > 0;
}

bool inside_is_wanted(const struct options *options)
{
    return options->on_report || options->gdb;
}

/* The one that is named, or beside the recorder's sources, or where both are installed. */
char *inside_library(const char *here)
{
    const char *named = getenv("LIBWITNESS");
    char *built = say_text("%s/../libwitness/out/libwitness.so.1", here);
    char *installed = say_text("%s/../../../lib/libwitness.so.1", here);
    char *path = realpath(named && *named ? named : access(built, R_OK) == 0 ? built : installed, NULL);
    free(built);
    free(installed);
    if (!path)
        fail("--on-report needs libwitness, which isn't built: make builds it");
    return path;
}

/* What it would tell itself, `record` tells with source lines. */
void inside_environment(const struct options *options)
{
    setenv("WITNESS", "1", 1);
    setenv("WITNESS_ON_REPORT", options->on_report ? options->on_report : "tell", 1);
    setenv("WITNESS_LOG", "/dev/null", 1);
}

/* The library is the program's, not gdb's. */
char **inside_debugger(const char *here, const char *library, char **program)
{
    size_t words = 0, count = 0;
    char *stand = say_text("%s/../libwitness/stand.py", here);
    if (!file_is_command("gdb"))
        fail("--on-report gdb needs gdb, which isn't there");
    while (program[words])
        words++;
    char **debugger = take((words + DEBUGGER_WORDS) * sizeof *debugger);
    const char *first[] = {"gdb", "-q", "-iex", "set startup-with-shell off", "-x", stand, "-ex"};
    for (size_t i = 0; i < sizeof first / sizeof *first; i++)
        debugger[count++] = copy(first[i]);
    debugger[count++] = say_text("set environment LD_PRELOAD %s", library);
    debugger[count++] = copy("--args");
    for (size_t i = 0; i < words; i++)
        debugger[count++] = program[i];
    free(stand);
    return debugger;
}
