/*
 * What is told: on standard error, or in the log. Where several processes speak, each line of one begins with its number.
 */
#ifndef RECORD_OUTPUT_H
#define RECORD_OUTPUT_H

#include <stdbool.h>
#include <stddef.h>

struct output {
    const char *log; /* NULL where it is standard error */
    bool several;
    bool is_coloured; /* headings are */
    long speaker;     /* whose lines follow; 0 where they are of the whole run */
    /* Is told all lines but those of reports, too; NULL where nobody is. */
    void (*hear)(void *by, long speaker, const char *text, size_t length);
    void *by;
};

/* The log's name with the process's number for each %p, a text of one's own. */
char *output_name(const char *log, long process);

/* The log is begun anew, unless each process has one of its own. */
void output_begin(struct output *output, const char *log, long process);

/* Whether each process has a log of its own. */
bool output_is_parted(const struct output *output);

/* From here on the process has the word, or with 0 the whole run, which is told where `process` has its log. */
void output_turns_to(struct output *output, long speaker, long process);

/* A line that begins with `record: `. */
void say(const struct output *output, const char *format, ...) __attribute__((format(printf, 2, 3)));

/* Lines as they are, and those of reports. */
void tell(const struct output *output, const char *text, size_t length);
void tell_report(const struct output *output, const char *text, size_t length);

#endif
