/*
 * What the words of options have: numbers, names, words between commas, files.
 */
#ifndef RECORD_OPTION_WORDS_H
#define RECORD_OPTION_WORDS_H

#include <stdbool.h>

/* The number that the word is, without a sign or zeroes before it; -1 where it isn't one from 1 to `most`. */
int number_up_to(const char *word, int most);

/* The N of exit=N; -1 where the word is none from 1 to 255. */
int exit_word(const char *word);

/* The number that the variable of the environment has; the usual one where it has none. Others are refused. */
int number_in_environment(const char *name, int most, int usual);

/* The word, which is a name that may stand in a file of orders: others, with that byte or control characters, are refused. */
const char *name_without(const char *option, const char *word, char stop);

/* The words between the commas but that one, of which it is said whether it is there. They last until this is asked again. */
const char *words_without(const char *words, const char *word, bool *is_there);

/* What stands after the word's beginning, if it begins so; else NULL. */
const char *after_beginning(const char *word, const char *beginning);

/* Whether the file is one of right orders of libraries: its first line that says something begins with an object's name. */
bool is_of_libraries(const char *path);

/*
 * The words with blanks between them, in apostrophes where a shell wouldn't pass them on as they are; a text that lasts to
 * the end.
 */
const char *words_in_line(char **words);

#endif
