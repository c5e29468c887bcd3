#include "orders_command.h"

#include <errno.h>
#include <signal.h>
#include <stdio.h>
#include <stdlib.h>
#include <string.h>

#include "allocation.h"
#include "files.h"
#include "orders_file.h"
#include "orders_question.h"
#include "orders_verdict.h"
#include "output_files.h"
#include "prepare.h"
#include "report_text.h"
#include "run_orders_picture.h"
#include "usage.h"

enum { FOUND = 1, FAILED = 126 };

static const char text[] =
    "orders judge [OPTIONS] FILE..     whether all orders of these files together have a circle, and which\n"
    "orders merge [-o FILE] FILE..     all of them, each once: to standard output, or a file, with counts beside it\n"
    "orders text FILE..                each type, and below it what may be asked for while it is held\n"
    "orders unseen N FILE..            those that weren't met in the last N runs\n"
    "orders learn [OPTIONS] FILE ..    runs a program as `record --learn FILE ..` does; what follows are words of record\n"
    "orders known [OPTIONS] FILE ..    runs it as `record --known FILE ..` does\n"
    "A file has a line for each order, CLASS \"TYPE\" > CLASS \"TYPE\", as record --learn writes it. One without\n"
    "FILE.runs beside it is that of one run. The options of judge:\n"
    "  --ignore FILE  lines \"TYPE\" \"TYPE\": either order is all right\n"
    "  --gen-suppressions   below each report the line for that file\n"
    "  --graph FILE   a picture of the orders, what is reported red: FILE.svg where dot is there, or FILE.dot\n"
    "  --html FILE    a page with the reports and the picture\n"
    "The options of learn and known:\n"
    "  --run-name NAME      what the run is called in the file; else each process has its program's name\n"
    "  --program-name NAME  what the program's own object is called there, for tests that are linked from the same sources\n"
    "  --new-exitcode N     of known: the status, 1 to 255, where there are new orders, and the program's is 0\n"
    "Status: that of record for learn and known; else 0; 1 where judge reports a circle or unseen names an order; 2 where the command line is wrong or a file\n"
    "is no file of orders; 126 where something is missing.\n";

/* What is asked for by options. */
struct wanted {
    const char *ignore, *to;
    struct drawing drawing;
    bool ignore_lines;
};

/* The word after the option, which goes on to the next one. */
static const char *word_after(char ***words)
{
    if (!(*words)[1])
        refuse("%s needs a word after it", **words);
    return *++*words;
}

/* The file to be written. */
static const char *file_after(char ***words)
{
    const char *option = **words, *file = word_after(words);
    written_name_check(option, file);
    return file;
}

static char **read_options(struct wanted *wanted, char **words, bool is_judge)
{
    *wanted = (struct wanted){0};
    for (; *words && **words == '-' && (*words)[1]; words++) {
        if (strcmp(*words, "--") == 0)
            return words + 1;
        if (!is_judge && strcmp(*words, "-o") == 0)
            wanted->to = file_after(&words);
        else if (is_judge && strcmp(*words, "--ignore") == 0)
            wanted->ignore = word_after(&words);
        else if (is_judge && strcmp(*words, "--graph") == 0)
            wanted->drawing.graph = file_after(&words);
        else if (is_judge && strcmp(*words, "--html") == 0)
            wanted->drawing.html = file_after(&words);
        else if (is_judge && strcmp(*words, "--gen-suppressions") == 0)
            wanted->ignore_lines = true;
        else
            refuse("there is no option %s here", *words);
    }
    return words;
}

/* Ends where there is a reason to: `done` is what isn't done then. */
static void end_for(const char *why, bool has_failed, const char *done)
{
    if (why && has_failed)
        fail("%s: nothing is %s", why, done);
    if (why)
        refuse_target("%s", why);
}

static void read_files(struct run_orders *orders, const char *witness, char **files, const char *done)
{
    if (!*files)
        refuse("no file is named");
    const char *why = run_orders_read(orders, witness, files, NULL);
    end_for(why, orders->has_failed, done);
}

/* What was written to standard output is there, or it is told that it isn't. */
static int status_of_output(int status)
{
    if (fflush(stdout) == 0 && !ferror(stdout))
        return status;
    fprintf(stderr, "orders: the output can't be written: %s\n", strerror(errno));
    return FAILED;
}

static int merge(const char *witness, char **words)
{
    struct run_orders orders = {0};
    struct wanted wanted;
    char **files = read_options(&wanted, words, false), *why = NULL;
    char *path = wanted.to ? orders_file_path(wanted.to) : NULL;
    int lock = -1;
    if (path && !orders_file_lock(path, &lock))
        fail("%s.lock can't be written: %s", path, strerror(errno));
    read_files(&orders, witness, files, "merged");
    if (path)
        why = orders_file_write(&orders, path);
    else
        orders_file_print(stdout, &orders);
    if (why)
        fail("%s", why);
    free(path);
    run_orders_end(&orders);
    return status_of_output(0);
}

static size_t count_ignored(const struct run_orders *orders)
{
    size_t ignored = 0;
    for (size_t i = 0; i < orders->count; i++)
        ignored += orders->order[i].is_ignored;
    return ignored;
}

/* What is known of all orders, as a text of one's own. Of those that are ignored nothing is. */
static char *verdict_of(const struct run_orders *orders, const struct judgement *judgement)
{
    const char *ignored = count_ignored(orders) > 0 ? " and the ignored ones" : "";
    const char *alone = judgement->against == 1 ? "it" : "these";
    if (judgement->against > 0)
        return say_text("%zu order%s against others, and no circle without %s%s", judgement->against,
            judgement->against == 1 ? "" : "s", alone, ignored);
    if (*ignored)
        return copy("no circle without the ignored ones");
    return copy("clean: threads that ask for nothing but these orders never wait for one another in a circle "
                "(docs/PROOFS.md)");
}

/* The last line, without its head. */
static char *summary_of(const struct run_orders *orders, const struct judgement *judgement)
{
    char *verdict = verdict_of(orders, judgement);
    char *count = say_count(orders->count, "order", "s"), *types = say_count(orders->types.count, "type", "s");
    char *runs = say_count(orders->runs, "run", "s");
    char *summary = say_text("%s: %s, %s, %s", verdict, count, types, runs);
    free(verdict);
    free(count);
    free(types);
    free(runs);
    return summary;
}

/* The reports and the last line. The status. */
static int tell(const struct run_orders *orders, const struct judgement *judgement, bool ignore_lines, const char *summary)
{
    int status = judgement->against > 0 ? FOUND : 0;
    for (size_t i = 0; i < judgement->reports.count; i++)
        report_write(stdout, &judgement->reports.report[i], false, ignore_lines);
    size_t ignored = count_ignored(orders);
    if (ignored > 0)
        printf("orders: %zu of them %s ignored\n", ignored, ignored == 1 ? "is" : "are");
    printf("orders: %s\n", summary);
    return status;
}

static int judge(const char *witness, char **words)
{
    struct run_orders orders = {0};
    struct wanted wanted;
    struct judgement judgement;
    char **files = read_options(&wanted, words, true);
    wanted.drawing.witness = witness;
    drawing_check(&wanted.drawing);
    read_files(&orders, witness, files, "judged");
    if (wanted.ignore) {
        prepare_files(&(struct settings){.ignore = wanted.ignore});
        run_orders_ignore(&orders, wanted.ignore);
    }
    run_orders_judge(&orders, witness, &judgement);
    if (judgement.failed)
        fail("%s: nothing is judged", judgement.failed);
    char *summary = summary_of(&orders, &judgement);
    int status = tell(&orders, &judgement, wanted.ignore_lines, summary);
    if (!run_orders_draw(&wanted.drawing, &orders, &judgement, summary))
        status = FAILED;
    free(summary);
    judgement_end(&judgement);
    run_orders_end(&orders);
    return status_of_output(status);
}

/* What the program makes of the files. */
static void ask_of(struct orders_question *question, const char *witness, const char *word, const char *number,
    char **files)
{
    if (!*files)
        refuse("no file is named");
    question_begin(question, witness, word, number);
    for (; *files; files++)
        question_file(question, *files);
    const char *why = question_answer(question);
    end_for(why, question->has_failed, "told");
}

static int tell_text(const char *witness, char **words)
{
    struct orders_question question;
    struct wanted wanted;
    ask_of(&question, witness, "text", NULL, read_options(&wanted, words, false));
    fwrite(question.told, 1, question.length, stdout);
    question_end(&question);
    return status_of_output(0);
}

/* Its last line counts, and isn't for people. */
static int tell_unseen(const char *witness, char **words)
{
    struct orders_question question;
    unsigned long unseen, orders, unknown;
    if (!*words || **words < '1' || **words > '9' || (*words)[strspn(*words, "0123456789")])
        refuse("unseen takes a number of runs first, not %s", *words ? *words : "nothing");
    ask_of(&question, witness, "unseen", *words, words + 1);
    char *last = question.length > 0 ? memrchr(question.told, '\n', question.length - 1) : NULL;
    last = last ? last + 1 : question.told;
    if (sscanf(last, "unseen: %lu of %lu orders, unknown: %lu", &unseen, &orders, &unknown) != 3)
        fail("%s answers something else than the orders", witness);
    fwrite(question.told, 1, (size_t)(last - question.told), stdout);
    if (unknown > 0)
        fprintf(stderr,
            "orders: of %lu orders the runs weren't counted one by one, so it isn't known when they were met last\n",
            unknown);
    question_end(&question);
    return status_of_output(unseen > 0 ? FOUND : 0);
}

int orders_command(const char *here, char **words)
{
    usage_speaks_as("orders");
    /*
     * A judge that ends before it has read all says why by its status, and a limit on the size of files is a failure
     * to write.
     */
    signal(SIGPIPE, SIG_IGN);
    signal(SIGXFSZ, SIG_IGN);
    const char *word = *words ? *words : "", *witness = program_called(here, "WITNESS", "witness");
    if (strcmp(word, "--help") == 0 || strcmp(word, "-h") == 0) {
        fputs(text, stdout);
        return status_of_output(0);
    }
    if (strcmp(word, "--version") == 0) {
        usage_version("orders");
        return status_of_output(0);
    }
    if (strcmp(word, "judge") == 0)
        return judge(witness, words + 1);
    if (strcmp(word, "merge") == 0)
        return merge(witness, words + 1);
    if (strcmp(word, "text") == 0)
        return tell_text(witness, words + 1);
    if (strcmp(word, "unseen") == 0)
        return tell_unseen(witness, words + 1);
    refuse("%s is none of judge, merge, text, unseen, learn and known", *word ? word : "nothing");
}
