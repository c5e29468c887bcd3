/*
 * Names of functions as their sources have them, and what is known of a function by its name or its file.
 */
#ifndef RECORD_SOURCE_NAMES_H
#define RECORD_SOURCE_NAMES_H

#include <stdbool.h>

/* A function's name without what it takes, and without what a template was made for: in place. */
void shorten(char *name);
/* A name of Rust's without the hash at its end, or in it: in place. */
void leave_hash_out(char *name);

/* Only the bytes that a name of a trace may have, in place; of a word no spaces. */
void clean_name(char *name);
void clean_word(char *word);

/* What a word of a stream stands for, whose escapes are undone: in place. */
void undo_escapes(char *word);

/* What stands after the last `::`. */
const char *last_part(const char *name);

/* Whether a function of that demangled name, from that file, is of C++'s library or Rust's, or annotates a lock. */
bool is_of_library(const char *name, const char *file);
/* Whether a function of C++'s library, by its mangled name, was made for one of the program: that may be inlined there. */
bool is_callback(const char *mangled);
/*
 * Whether an inlined function of that short name only locks, by the names that places.c goes by; or whether one of the
 * patterns of --skip, which are parted by colons, is for it.
 */
bool is_wrapper(const char *name, const char *patterns);
/* Whether a thread begins in the function. */
bool is_thread_begin(const char *name);
/* Whether the object's file is the C library itself. */
bool is_c_library(const char *path);
/* Whether the object's file is C++'s library itself. */
bool is_library_object(const char *path);

#endif
