/*
 * Names of files, and regular files that are read.
 */
#ifndef RECORD_FILES_H
#define RECORD_FILES_H

#include <stdbool.h>
#include <stddef.h>
#include <sys/stat.h>

/* What stands after the last slash. */
const char *file_base(const char *path);

/* The folder of the file, as a text of one's own. */
char *file_folder(const char *path);

/* The file that a program's name means, as a text of one's own; NULL where there is none. */
char *file_of(const char *program);

/*
 * The program of that name: the one that the variable names, else the one of the repository or of the installed tree.
 */
const char *program_called(const char *here, const char *variable, const char *name);

/* Whether that can be run as a program. */
bool file_is_command(const char *program);

/* The folder for files of the moment. */
const char *file_temporary(void);

/*
 * Opens the file to be read, and says of what sort it is. -1 where it can't be, or is no regular file: the name may be that of
 * anything by now, and nothing is waited for.
 */
int file_open_regular(const char *path, struct stat *found);

/* Reads up to so many bytes. The answer is how many there are. */
size_t file_read(int file, char *bytes, size_t length);

/* Writes so many zeroes to the file, which is made. */
bool file_fill(const char *path, size_t bytes);

#endif
