/*
 * How `record` is used, and how it ends before anything was run.
 */
#ifndef RECORD_USAGE_H
#define RECORD_USAGE_H

/* Tells on standard output how it is used; `here` is the folder of the recorder's sources. */
void usage(const char *here);

/* What the option does, its line in the text of usage(); an empty text where it has none. A text of one's own. */
char *usage_of(const char *option);

/* Tells on standard output the version of that command, and the kit by which what it stands on is proved. */
void usage_version(const char *command);

/* From here on lines begin with the name of that command in place of `record`; it lasts to the end. */
void usage_speaks_as(const char *command);

/* The command line is wrong: a line that says why, and the status 2. */
_Noreturn void refuse(const char *format, ...) __attribute__((format(printf, 1, 2)));

/* There is nothing to be looked at: a line that says why, and the status 2. */
_Noreturn void refuse_target(const char *format, ...) __attribute__((format(printf, 1, 2)));

/* What keeps the program from being run at all: a line that says it, and the status 126. */
_Noreturn void fail(const char *format, ...) __attribute__((format(printf, 1, 2)));

#endif
