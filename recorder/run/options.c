#include "options.h"

#include <stdio.h>
#include <stdlib.h>
#include <string.h>
#include <unistd.h>

#include "alarms.h"
#include "allocation.h"
#include "colour.h"
#include "completion.h"
#include "confirm.h"
#include "deadlock_watch.h"
#include "files.h"
#include "graph.h"
#include "libwitness_mode.h"
#include "option_words.h"
#include "output_files.h"
#include "right_orders.h"
#include "usage.h"

enum { FRAMES_MOST = 16, FRAMES_USUAL = 8, DEPTH_MOST = 4, DEPTH_USUAL = 2 };

static void take_brief(struct options *options, const char *word)
{
    (void)word;
    options->settings.frames = 1;
}

/* Who has said how many frames he wants has these. */
static void take_verbose(struct options *options, const char *word)
{
    (void)word;
    options->held = true;
    options->settings.frames = number_in_environment("RECORD_FRAMES", FRAMES_MOST, FRAMES_MOST);
}

static void take_skip(struct options *options, const char *word)
{
    static const char letters[] = "ABCDEFGHIJKLMNOPQRSTUVWXYZabcdefghijklmnopqrstuvwxyz0123456789_*?";
    static char *skip; /* all of them */
    char *before = skip;
    if (*word == '\0' || word[strspn(word, letters)])
        refuse("--skip takes a function's name without class, namespace or what it is called with, not %s", word);
    options->settings.skip = skip = before ? say_text("%s:%s", before, word) : copy(word);
    free(before);
}

static void take_ignore(struct options *options, const char *word)
{
    if (strcmp(word, "none") == 0)
        options->settings.right = "-";
    else if (is_of_libraries(word))
        options->settings.right = word;
    else
        options->settings.ignore = word;
}

static void take_no_right(struct options *options, const char *word)
{
    (void)word;
    options->settings.right = "-";
}

static void take_run_name(struct options *options, const char *word)
{
    options->settings.run_name = name_without("--run-name", word, ',');
}

static void take_program_name(struct options *options, const char *word)
{
    options->settings.program_name = name_without("--program-name", word, '"');
}

static void take_graph(struct options *options, const char *word)
{
    graph_check(word);
    options->settings.graph = word;
}

static void take_alarms(struct options *options, const char *word)
{
    struct alarms_wanted wanted = {0};
    const char *words = words_without(word, "no-errors", &options->settings.no_errors);
    if ((*words || !options->settings.no_errors) && !alarms_words(words, &wanted))
        refuse("--alarms takes all, locks or threads, and gate, readers, timed, apart, confirmed and no-errors, by commas, "
               "not %s",
            word);
    options->settings.alarms = *words ? words : NULL;
    options->counts_confirmed = wanted.confirmed;
}

static void take_deadlock(struct options *options, const char *word)
{
    int status;
    if (!deadlock_word(word, &status))
        refuse("--on-deadlock is tell, kill or exit=N, where N is 1 to 255, not %s", word);
    options->settings.on_deadlock = word;
}

static void take_confirm_time(struct options *options, const char *word)
{
    options->settings.confirm_seconds = number_up_to(word, 9999);
    if (options->settings.confirm_seconds < 0)
        refuse("the time of --confirm is 1 to 9999 seconds, not %s", word);
}

static void take_noise(struct options *options, const char *word)
{
    options->settings.noise = word ? number_up_to(word, 1000) : CONFIRM_NOISE_MS;
    if (options->settings.noise < 0)
        refuse("noise is 1 to 1000 milliseconds, not %s", word);
}

/* One of the words of --confirm. */
static void take_confirm_word(struct options *options, const char *word)
{
    const char *seconds = after_beginning(word, "time="), *pause = after_beginning(word, "noise=");
    if (seconds)
        take_confirm_time(options, seconds);
    else if (pause || strcmp(word, "noise") == 0)
        take_noise(options, pause);
    else
        options->settings.confirm = number_up_to(word, 100);
    if (options->settings.confirm < 0)
        refuse("--confirm takes 1 to 100 runs for each report, time=SECONDS, noise, and last from=FILE, by commas, not %s",
            word);
    if (seconds && options->settings.confirm == 0)
        options->settings.confirm = CONFIRM_RUNS;
}

/* A name of a file may have commas. */
static void take_confirm(struct options *options, const char *words)
{
    if (!words || !*words)
        options->settings.confirm = CONFIRM_RUNS;
    for (const char *at = words, *end; at && *at; at = end + (*end == ',')) {
        const char *file = after_beginning(at, "from=");
        end = file ? at + strlen(at) : at + strcspn(at, ",");
        char *word = copy_bytes(at, (size_t)(end - at));
        if (file && *file)
            options->settings.confirm_from = file;
        else
            take_confirm_word(options, word);
        free(word);
    }
}

static void take_gdb(struct options *options, const char *word)
{
    (void)word;
    options->gdb = options->settings.in_debugger = true;
}

static void take_on_report(struct options *options, const char *word)
{
    bool is_gdb = strcmp(word, "gdb") == 0;
    if (!is_gdb && !inside_word(word))
        refuse("--on-report is gdb, tell, stop, trap, abort or exit=N, where N is 1 to 255, not %s", word);
    if (is_gdb)
        take_gdb(options, NULL);
    else
        options->on_report = word;
}

static void take_errors(struct options *options, const char *word)
{
    if (strcmp(word, "no") != 0 && strcmp(word, "yes") != 0)
        refuse("--errors is yes or no, not %s", word);
    options->settings.no_errors = strcmp(word, "no") == 0;
}

static void take_colour(struct options *options, const char *word)
{
    options->settings.colour = word ? word : "always";
    if (!colour_word(options->settings.colour))
        refuse("--color is auto, always or never, not %s", word);
}

static void take_help(struct options *options, const char *word)
{
    (void)word;
    usage(options->here);
    exit(0);
}

static void take_version(struct options *options, const char *word)
{
    (void)options;
    (void)word;
    usage_version("record");
    exit(0);
}

static void take_completion(struct options *options, const char *word);

struct option {
    const char *name;
    /*
     * What stands after it; OUTPUT is a file that is written, INPUT one that is read, and MAYBE a word that stands after `=`
     * or not at all.
     */
    enum { ALONE, WORD, OUTPUT, INPUT, MAYBE } after;
    /*
     * What it does: it calls `take`; or a flag, a text, or a number up to `most` goes to that place of the options. FILLED is
     * a text of which the empty one is none.
     */
    enum { GONE, CALL, FLAG, TEXT, FILLED, NUMBER } kind;
    void (*take)(struct options *options, const char *word);
    size_t place;
    int most;
};

#define CALL(function) CALL, .take = (function)
#define PLACE(field) .place = offsetof(struct options, field)
#define FLAG(field) FLAG, PLACE(field)
#define TEXT(field) TEXT, PLACE(field)
#define FILLED(field) FILLED, PLACE(field)
#define NUMBER(field, bound) NUMBER, PLACE(field), .most = (bound)

static const struct option known[] = {
    {"-o", OUTPUT, TEXT(settings.keep)},
    {"--log-file", OUTPUT, TEXT(settings.log)},
    {"--html", OUTPUT, TEXT(settings.html)},
    {"--sarif", OUTPUT, TEXT(settings.sarif)},
    {"--json", OUTPUT, TEXT(settings.json)},
    {"--brief", ALONE, CALL(take_brief)},
    {"--verbose", ALONE, CALL(take_verbose)},
    {"-v", ALONE, FLAG(settings.shows_children)},
    {"--quiet", ALONE, FLAG(settings.quiet)},
    {"--color", MAYBE, CALL(take_colour)},
    {"--error-exitcode", WORD, NUMBER(settings.error, 255)},
    {"--alarms", WORD, CALL(take_alarms)},
    {"--ignore", INPUT, CALL(take_ignore)},
    {"--gen-suppressions", ALONE, FLAG(settings.ignore_lines)},
    {"--learn", OUTPUT, TEXT(settings.learn)},
    {"--known", INPUT, TEXT(settings.known)},
    {"--confirm", MAYBE, CALL(take_confirm)},
    {"--on-deadlock", WORD, CALL(take_deadlock)},
    {"--on-report", WORD, CALL(take_on_report)},
    {"--skip", WORD, CALL(take_skip)},
    {"--semaphores", ALONE, FLAG(semaphores)},
    {"--blocks", ALONE, FLAG(blocks)},
    {"--show", INPUT, TEXT(target)},
    {"--help", ALONE, CALL(take_help)},
    {"-h", ALONE, CALL(take_help)},
    {"--version", ALONE, CALL(take_version)},
};

/* Options of earlier versions, and what is to be used in their place. Those of the kind GONE are no more. */
static const struct earlier {
    struct option option;
    const char *instead;
} earlier[] = {
    {{"--depth", WORD, NUMBER(depth, DEPTH_MOST)}, "RECORDER_DEPTH=N in the environment"},
    {{"--frames", WORD, NUMBER(settings.frames, FRAMES_MOST)},
        "--brief, --verbose, or RECORD_FRAMES=N in the environment"},
    {{"--held-callers", ALONE, FLAG(held)}, "--verbose"},
    {{"--default-ignore", INPUT, TEXT(settings.right)}, "--ignore FILE"},
    {{"--no-default-ignore", ALONE, CALL(take_no_right)}, "--ignore none"},
    {{"--new-exitcode", WORD, NUMBER(settings.new_error, 255)}, "orders known --new-exitcode N FILE -- PROGRAM"},
    {{"--run-name", WORD, CALL(take_run_name)}, "orders learn --run-name NAME FILE -- PROGRAM"},
    {{"--program-name", WORD, CALL(take_program_name)}, "orders learn --program-name NAME FILE -- PROGRAM"},
    {{"--graph", OUTPUT, CALL(take_graph)}, "--html FILE, a page with the pictures"},
    {{"--judge", ALONE, FLAG(settings.judge)}, "-o TRACE, and then witness migrate <TRACE"},
    {{"--confirm-time", WORD, CALL(take_confirm_time)}, "--confirm=time=SECONDS"},
    {{"--confirm-from", INPUT, TEXT(settings.confirm_from)}, "--confirm=from=FILE"},
    {{"--before", WORD, FILLED(settings.before)}, "-- sh -c 'COMMAND; exec PROGRAM'"},
    {{"--noise", MAYBE, CALL(take_noise)}, "--confirm=noise"},
    {{"--errors", WORD, CALL(take_errors)}, "--alarms no-errors"},
    {{"--gdb", ALONE, CALL(take_gdb)}, "--on-report gdb"},
    {{"--trace", INPUT, TEXT(trace)}, "-o TRACE --show FILE"},
    {{"--clean", INPUT, TEXT(clean)}, "witness clean <FILE"},
    {{"--completion", WORD, CALL(take_completion)}, "tools/completion, or what tools/install puts under share"},
    {{"--full", ALONE, .kind = GONE}, "what is left out changes no verdict"},
    {{"--profile", WORD, .kind = GONE}, "a request is compared with all locks that its thread holds, always"},
};

static void take_completion(struct options *options, const char *word)
{
    (void)options;
    if (!completion_shell(word))
        refuse("--completion is bash, zsh or fish, not %s", word);
    completion_begin(word);
    for (size_t i = 0; i < sizeof known / sizeof *known; i++) {
        const struct option *option = &known[i];
        bool is_file = option->after == INPUT || option->after == OUTPUT;
        completion_option(word, option->name, option->after != ALONE && option->after != MAYBE, is_file);
    }
    completion_end(word);
    exit(0);
}

/* Whether the word is that option, and what stands after its `=`. */
static bool is_option(const struct option *option, const char *word)
{
    size_t length = strlen(option->name);
    return strncmp(option->name, word, length) == 0 && (!word[length] || (option->after == MAYBE && word[length] == '='));
}

static const struct option *option_of_earlier(const char *word, bool is_told)
{
    for (size_t i = 0; i < sizeof earlier / sizeof *earlier; i++) {
        const struct option *option = &earlier[i].option;
        if (!is_option(option, word))
            continue;
        if (option->kind == GONE)
            refuse("%s is gone: %s", option->name, earlier[i].instead);
        if (is_told)
            fprintf(stderr, "record: %s goes: use %s\n", option->name, earlier[i].instead);
        return option;
    }
    refuse("there is no option %s", word);
}

static const struct option *option_of(const char *word, bool is_told)
{
    for (size_t i = 0; i < sizeof known / sizeof *known; i++)
        if (is_option(&known[i], word))
            return &known[i];
    return option_of_earlier(word, is_told);
}

/* `word` is what stands after the option, NULL where there is nothing. */
static void follow_option(struct options *options, const struct option *option, const char *word)
{
    void *place = (char *)options + option->place;
    int number = option->kind == NUMBER ? number_up_to(word, option->most) : 0;
    if (number < 0)
        refuse("%s is 1 to %d, not %s", option->name, option->most, word);
    if (option->kind == CALL)
        option->take(options, word);
    else if (option->kind == FLAG)
        *(bool *)place = true;
    else if (option->kind == NUMBER)
        *(int *)place = number;
    else
        *(const char **)place = option->kind == FILLED && !*word ? NULL : word;
}

/* Reads the options. The answer is the first word that is none. Of those before `told` nothing is told. */
static char **read_options(struct options *options, char **words, char *const *told)
{
    for (; *words && **words == '-'; words++) {
        if (strcmp(*words, "--") == 0)
            return words + 1;
        const struct option *option = option_of(*words, words >= told);
        if (option->after == ALONE || option->after == MAYBE) {
            const char *equals = strchr(*words, '=');
            follow_option(options, option, equals ? equals + 1 : NULL);
            continue;
        }
        if (!words[1])
            refuse("%s needs a word after it", *words);
        if (option->after == OUTPUT)
            written_name_check(*words, words[1]);
        if (option->after == INPUT && *words[1] == '\0')
            refuse("%s takes a file, and its name is empty", *words);
        follow_option(options, option, *++words);
    }
    return words;
}

/* What is asked of steered runs has to go with the rest. */
static void check_confirm(const struct options *options, const char *other)
{
    bool confirms = confirm_is_any(&options->settings);
    if (options->counts_confirmed && !confirm_is_wanted(&options->settings))
        refuse("--alarms confirmed needs --confirm");
    if (options->settings.before && !confirms)
        refuse("--before needs --confirm");
    if (confirms && other)
        refuse("%s runs no program, so --confirm means nothing", other);
    if (confirms && options->gdb)
        refuse("--confirm and --gdb are one or the other");
    if (confirms && options->settings.frames == 1)
        refuse("--confirm needs stacks, which --brief and RECORD_FRAMES=1 leave out");
}

void options_read(struct options *options, const char *here, char **words, size_t untold)
{
    static char *volatile directory; /* lasts to the end, also where the settings come to name another one */
    directory = get_current_dir_name();
    *options = (struct options){.here = here};
    options->depth = number_in_environment("RECORDER_DEPTH", DEPTH_MOST, DEPTH_USUAL);
    options->settings.directory = directory ? directory : "";
    options->settings.frames = number_in_environment("RECORD_FRAMES", FRAMES_MOST, FRAMES_USUAL);
    options->settings.confirm_seconds = CONFIRM_SECONDS;
    options->program = read_options(options, words, words + untold);
    const char *other = options->target ? "--show" : options->trace ? "--trace" : options->clean ? "--clean" : NULL;
    if (other && *options->program)
        refuse("%s runs no program, so %s means nothing", other, *options->program);
    if (!other && !*options->program)
        refuse("no program is named");
    options->settings.right_usually = right_orders_folder(here);
    if (options->settings.learn && options->settings.known)
        refuse("--learn and --known are one or the other");
    check_confirm(options, other);
    if (options->settings.confirm_from && options->settings.confirm == 0)
        options->settings.confirm = CONFIRM_RUNS;
    options->settings.program = other ? "" : file_base(*options->program);
    options->settings.words = other ? "" : words_in_line(options->program);
}
