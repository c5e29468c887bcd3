/*
 * Texts of sources of C and C++: words, brackets and paths in them.
 */
#ifndef RECORD_SOURCE_TEXT_H
#define RECORD_SOURCE_TEXT_H

#include <stdbool.h>

/*
 * A text from `at` to before `end`. No string and no comment is in it: these are blanks by then, so that brackets in
 * them don't count.
 */
struct span {
    const char *at, *end;
};

/* Blanks in place of strings, characters and comments. What doesn't end goes on to the text's end. */
void blank_out(char *text);

bool is_word_byte(char byte);
bool begins_word(char byte);
struct span trimmed(struct span span);
bool is_word(struct span span, const char *word);
/* Whether the part is in it, in letters of any size. */
bool has_part(struct span word, const char *part);
/* The word that ends before `end`; template arguments after it are passed over. */
struct span word_before(const char *from, const char *end);

/* What follows the bracket that closes the one at `at`; NULL where none does. */
const char *after_bracket(const char *at, const char *end);
/* Where the postfix expression begins that ends before `end`: names, brackets, `.`, `->` and `::`. */
const char *path_begin(const char *from, const char *end);

/*
 * The path without what stands between brackets of an index, which differs from one element to the next: in place. Numbers
 * stay, and names without small letters, which are constants.
 */
void leave_indices_out(char *path);

#endif
