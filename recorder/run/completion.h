/*
 * What shells need to complete the options of `record`: written to standard output, an option at a time.
 */
#ifndef RECORD_COMPLETION_H
#define RECORD_COMPLETION_H

#include <stdbool.h>

/* Whether it is a shell that is known: bash, zsh or fish. */
bool completion_shell(const char *shell);

/* What comes before all options. */
void completion_begin(const char *shell);

/* An option, whether a word stands after it, and whether that is a file. */
void completion_option(const char *shell, const char *option, bool takes, bool is_file);

/* What comes after them. Behind the options stand a program and its words. */
void completion_end(const char *shell);

#endif
