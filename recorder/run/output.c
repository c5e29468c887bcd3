#include "output.h"

#include <stdarg.h>
#include <stdio.h>
#include <stdlib.h>
#include <string.h>
#include <unistd.h>

#include "allocation.h"
#include "colour.h"
#include "output_files.h"
#include "write_all.h"

char *output_name(const char *log, long process)
{
    char *name = copy("");
    for (const char *next; (next = strstr(log, "%p")); log = next + 2) {
        char *longer = say_text("%s%.*s%ld", name, (int)(next - log), log, process);
        free(name);
        name = longer;
    }
    char *whole = say_text("%s%s", name, log);
    free(name);
    return whole;
}

/* What can't be written to the log stays on standard error. The children of this process write to the log, too. */
static void open_log(const char *log, long process, enum written_from from)
{
    char *name = output_name(log, process);
    int file = written_open(name, from);
    if (file >= 0) {
        dup2(file, STDERR_FILENO);
        close(file);
    }
    free(name);
}

bool output_is_parted(const struct output *output)
{
    return output->log && strstr(output->log, "%p");
}

void output_begin(struct output *output, const char *log, long process)
{
    *output = (struct output){.log = log && *log ? log : NULL};
    if (output->log)
        open_log(output->log, process, output_is_parted(output) ? WRITTEN_BEHIND : WRITTEN_ANEW);
}

void output_turns_to(struct output *output, long speaker, long process)
{
    output->speaker = speaker;
    if (output_is_parted(output))
        open_log(output->log, speaker ? speaker : process, WRITTEN_BEHIND);
}

/* The lines, each after the number of its process. */
static char *with_numbers(long speaker, const char *text, size_t length, size_t *made)
{
    char *lines = NULL;
    FILE *to = open_memstream(&lines, made);
    const char *end = text + length;
    if (!to)
        return NULL;
    while (text < end) {
        const char *after = memchr(text, '\n', (size_t)(end - text));
        after = after ? after + 1 : end;
        fprintf(to, "==%ld== ", speaker);
        fwrite(text, 1, (size_t)(after - text), to);
        text = after;
    }
    return fclose(to) == 0 ? lines : NULL;
}

void tell_report(const struct output *output, const char *text, size_t length)
{
    size_t made = 0, numbered_made = 0;
    char *in_colour = output->is_coloured ? coloured(text, length, &made) : NULL;
    const char *lines = in_colour ? in_colour : text;
    if (!in_colour)
        made = length;
    bool is_numbered = output->speaker && output->several;
    char *numbered = is_numbered ? with_numbers(output->speaker, lines, made, &numbered_made) : NULL;
    write_all(STDERR_FILENO, numbered ? numbered : lines, numbered ? numbered_made : made);
    free(numbered);
    free(in_colour);
}

void tell(const struct output *output, const char *text, size_t length)
{
    if (output->hear)
        output->hear(output->by, output->several ? output->speaker : 0, text, length);
    tell_report(output, text, length);
}

void say(const struct output *output, const char *format, ...)
{
    va_list words;
    char *text = NULL;
    size_t length = 0;
    FILE *to = open_memstream(&text, &length);
    if (!to)
        return;
    fputs("record: ", to);
    va_start(words, format);
    vfprintf(to, format, words);
    va_end(words);
    fputc('\n', to);
    if (fclose(to) == 0)
        tell(output, text, length);
    free(text);
}
